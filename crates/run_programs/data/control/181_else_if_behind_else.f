      IF (I.EQ.1) THEN
      ELSE
      ELSE IF (I.EQ.2) THEN
      END IF
      END
