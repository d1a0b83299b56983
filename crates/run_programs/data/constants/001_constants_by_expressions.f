      LOGICAL ODD,BIG
      PARAMETER (N=3,M=N*N+1,K=-M/N)
      PARAMETER (ODD=2*(N/2).NE.N,BIG=.NOT.ODD.OR.M.GT.9)
      INTEGER A(-N:N),B(N,K:M-8)
      A(-N)=N
      A(N)=M
      B(N,K)=K
      WRITE (6,10) N,M,K,ODD,BIG
      WRITE (6,20) A,B
   10 FORMAT (3I4,2L3)
   20 FORMAT (7I3)
      END
