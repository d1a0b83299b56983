      J=1
      IMPLICIT INTEGER(A)
      END
