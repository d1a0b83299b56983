      DATAI/.TRUE/
      END
