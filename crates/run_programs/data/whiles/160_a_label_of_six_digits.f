      DO 000010 WHILE (I.LT.3)
   10 END DO
      END
