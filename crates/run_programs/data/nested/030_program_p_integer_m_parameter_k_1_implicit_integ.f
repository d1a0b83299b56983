      PROGRAM P
      INTEGER M
      PARAMETER(K=1)
      IMPLICIT INTEGER(A)
      J=1
      END
