      DO WHILE (I.LT.3)
      I=I+1
   10 K=K+1
      END DO
      IF (K.LT.9) GO TO 10
      END
