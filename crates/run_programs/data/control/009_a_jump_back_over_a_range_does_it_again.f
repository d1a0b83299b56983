      N=0
   10 N=N+1
      DO 20 I=1,N
   20 K=K+I
      IF (N.LT.4) GO TO 10
      WRITE (6,30) N,I,K
   30 FORMAT (3I4)
      END
