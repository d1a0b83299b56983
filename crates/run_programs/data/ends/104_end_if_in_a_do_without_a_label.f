      IF (I.EQ.0) THEN
      DO J=1,2
      END IF
      END DO
      END
