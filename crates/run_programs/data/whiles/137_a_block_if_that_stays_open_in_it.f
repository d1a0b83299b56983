      DO WHILE (I.LT.3)
      IF (I.EQ.1) THEN
      END
