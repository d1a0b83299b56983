      DIMENSION L(X(1,2))
      PARAMETER (X=2)
      END
