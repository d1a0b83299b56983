      DO 10 I=1,2
      IF (I.EQ.1) GO TO 10
      DO 10 J=1,3
   10 K=K+1
      END
