      PARAMETER (K=0)
      PARAMETER (N=K**K)
      END
