      DO WHILE (X.LT.3)
      END DO
      END
