      DO 10 WHILE (I.LT.3)
      DO J=1,2
   10 I=I+1
      END DO
      END
