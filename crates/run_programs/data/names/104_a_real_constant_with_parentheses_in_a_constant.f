      PARAMETER (N=X(1))
      PARAMETER (X=2)
      END
