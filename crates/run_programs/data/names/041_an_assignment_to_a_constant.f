      PARAMETER (N=3)
      N=N+1
      END
