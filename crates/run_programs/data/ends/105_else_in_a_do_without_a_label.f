      IF (I.EQ.0) THEN
      DO J=1,2
      ELSE
      END DO
      END IF
      END
