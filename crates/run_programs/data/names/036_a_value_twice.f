      PARAMETER (N=3,M=4)
      PARAMETER (L=5,N=3)
      END
