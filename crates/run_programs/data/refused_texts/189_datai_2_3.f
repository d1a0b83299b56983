      DATAI/-2*3/
      END
