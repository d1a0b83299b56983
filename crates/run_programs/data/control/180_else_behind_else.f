      IF (I.EQ.1) THEN
      ELSE
      J=1
      ELSE
      END IF
      END
