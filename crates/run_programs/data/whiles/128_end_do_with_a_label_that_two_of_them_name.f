      DO 10 WHILE (I.LT.3)
      I=I+1
      DO 10 WHILE (J.LT.3)
   10 END DO
      END
