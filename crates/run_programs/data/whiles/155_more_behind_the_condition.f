      DO WHILE (I.LT.3).OR.(I.GT.5)
      END DO
      END
