      IMPLICIT INTEGER (X)
      INTEGER L(X(1))
      PARAMETER (X=2)
      END
