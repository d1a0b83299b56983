      I=1
      DO WHILE (I.LT.J.LT.3)
      END DO
      END
