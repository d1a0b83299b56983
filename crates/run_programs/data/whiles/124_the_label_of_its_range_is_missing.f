      DO 10 WHILE (I.LT.3)
      I=I+1
   20 CONTINUE
      END
