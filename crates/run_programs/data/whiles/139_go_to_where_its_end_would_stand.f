      DO 10 WHILE (I.LT.3)
   20 I=I+1
   10 GO TO 20
      END
