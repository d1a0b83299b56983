      IF (I.EQ.1) THEN
      GO TO 10
   10 ELSE
      END IF
      END
