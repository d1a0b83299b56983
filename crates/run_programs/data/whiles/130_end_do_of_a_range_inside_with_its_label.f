      DO 10 WHILE (I.LT.3)
      I=I+1
      DO J=1,2
   10 END DO
      END DO
      END
