      PARAMETER (N=2)
      DATA N(1)/1/
      END
