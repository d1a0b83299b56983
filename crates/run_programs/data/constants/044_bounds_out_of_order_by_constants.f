      PARAMETER (N=3,M=N-1)
      LOGICAL L(N:M)
      END
