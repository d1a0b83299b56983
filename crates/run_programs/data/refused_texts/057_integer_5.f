      INTEGER(5)
      END
