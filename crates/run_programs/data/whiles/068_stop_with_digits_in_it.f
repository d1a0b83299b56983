      DO 10 WHILE (I.LT.10)
      I=I+1
   10 IF (I.EQ.7) STOP 00042
      END
