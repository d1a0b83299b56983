      DO 00 WHILE (I.LT.3)
      END DO
      END
