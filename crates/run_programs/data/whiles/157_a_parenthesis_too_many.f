      DO WHILE (I.LT.3))
      END DO
      END
