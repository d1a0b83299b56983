      IF (I.EQ.1) THEN
      J=1
      ELSE IF (I.EQ.0) THEN
      ELSE
      END IF
      PRINT '(I2)',J
      END
