      ITWICE(N)=2*N
      IDIFF(M,N)=M-N
      ISWAP(M,N)=IDIFF(N,M)
      N=100
      M=30
      WRITE (6,10) ISWAP(M,N),ISWAP(N,M),IDIFF(N,ITWICE(M)),ISWAP(N+M,N)
   10 FORMAT (4I5)
      END
