      DATAI/'A'/
      END
