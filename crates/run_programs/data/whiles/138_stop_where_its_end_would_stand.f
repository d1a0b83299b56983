      DO 10 WHILE (I.LT.3)
   10 STOP
      END
