      DO WHILE (I.LT.3.AND.J)
      END DO
      END
