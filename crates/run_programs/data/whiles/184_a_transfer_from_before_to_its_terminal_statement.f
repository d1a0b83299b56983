      IF (I.EQ.0) GO TO 10
      DO 10 WHILE (I.LT.3)
      K=K+1
   10 I=I+1
      END
