      DO WHILE (I.LT.3)
      DO J=1,2
      I=I+1
      END DO
      END
