      GO TO 10
      DO 20 WHILE (I.LT.3)
   10 I=I+1
   20 CONTINUE
      END
