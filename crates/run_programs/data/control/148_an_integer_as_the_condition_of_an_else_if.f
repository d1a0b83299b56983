      IF (I.EQ.1) THEN
      ELSE IF (1) THEN
      END IF
      END
