      INTEGER L(N(1))
      PARAMETER (N=2)
      END
