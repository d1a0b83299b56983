      IF (I.EQ.1) THEN
      DATA I/1/
      ELSE
      DATA I/2/
      END IF
      END
