      IF (I.EQ.1) THEN
   10 ELSE IF (I.EQ.2) THEN
      END IF
      GO TO 10
      END
