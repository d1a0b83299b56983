      DO 10 WHILE (I.LT.3)
      I=I+1
      IF (I.EQ.2) GO TO 10
      DO 10 J=1,2
   10 K=K+J
      END
