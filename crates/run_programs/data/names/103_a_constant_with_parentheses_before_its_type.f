      INTEGER L(X(1))
      INTEGER X
      PARAMETER (X=2)
      END
