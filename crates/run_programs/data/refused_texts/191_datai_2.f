      DATAI/*2/
      END
