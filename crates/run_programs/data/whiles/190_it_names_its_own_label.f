   10 DO 10 WHILE (I.LT.3)
   10 I=I+1
      END
