      GO TO 10
      IF (I.EQ.1) THEN
      IF (I.EQ.2) THEN
   10 END IF
      END IF
      END
