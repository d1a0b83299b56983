      PARAMETER (N=3)
      DIMENSION N(3)
      END
