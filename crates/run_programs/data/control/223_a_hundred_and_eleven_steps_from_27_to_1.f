      N=27
   10 IF (N.EQ.1) GO TO 30
      IF (MOD(N,2).EQ.0) GO TO 20
      N=3*N+1
      K=K+1
      GO TO 10
   20 N=N/2
      K=K+1
      GO TO 10
   30 WRITE (6,40) K
   40 FORMAT (I4)
      END
