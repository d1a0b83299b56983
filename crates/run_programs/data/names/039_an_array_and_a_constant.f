      DIMENSION N(3)
      PARAMETER (N=3)
      END
