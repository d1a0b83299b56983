      DO 10 WHILE (I.LT.3)
      I=I+1
      END DO
      END
