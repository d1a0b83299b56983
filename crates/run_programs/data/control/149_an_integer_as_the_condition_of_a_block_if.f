      IF (I+1) THEN
      END IF
      END
