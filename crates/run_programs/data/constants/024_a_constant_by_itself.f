      PARAMETER (N=N+1)
      END
