      N=1
      DO 10 WHILE (N*N.LE.200)
      N=N+1
      K=K+N
   10 CONTINUE
      WRITE (6,20) N,K
   20 FORMAT (2I5)
      END
