      DO 20 N=1,3
      DO 10 I=1,3
      IF (I.EQ.N) GO TO 20
   10 K=K+1
      K=99
   20 WRITE (6,30) N,I,K
   30 FORMAT (3I3)
      END
