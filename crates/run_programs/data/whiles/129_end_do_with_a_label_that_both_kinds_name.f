      DO 10 WHILE (I.LT.3)
      DO 10 J=1,2
   10 END DO
      END
