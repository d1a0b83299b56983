      IF (I.EQ.0) THEN
      END DO
      END IF
      END
