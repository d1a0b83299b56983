      PARAMETER (N=3)
      IADD(N)=N+K
      ITWO(K)=2*K+N
      K=10
      WRITE (6,10) IADD(1),ITWO(1),N,K
   10 FORMAT (4I3)
      END
