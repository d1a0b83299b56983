      IF (I) THEN
      END IF
      END
