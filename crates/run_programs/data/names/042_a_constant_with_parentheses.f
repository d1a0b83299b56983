      PARAMETER (N=3)
      I=N(1)
      END
