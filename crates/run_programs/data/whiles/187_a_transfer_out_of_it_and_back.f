      DO WHILE (I.LT.3)
      I=I+1
      IF (I.EQ.2) GO TO 20
   10 K=K+1
      END DO
      STOP
   20 K=100
      GO TO 10
      END
