C TURNS 12
      N=7
   10 IF (MOD(N,5).EQ.0) GO TO 20
      N=N+1
      GO TO 10
   20 WRITE (6,30) N
   30 FORMAT (I5)
      END
