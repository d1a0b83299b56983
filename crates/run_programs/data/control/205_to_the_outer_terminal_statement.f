      DO 20 I=1,3
      DO 10 J=1,3
      IF (J.EQ.I) GO TO 20
   10 K=K+1
   20 L=L+J
      WRITE (6,30) K,L,I,J
   30 FORMAT (4I3)
      END
