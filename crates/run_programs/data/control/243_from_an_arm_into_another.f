      IF (I.EQ.1) THEN
      GO TO 10
      ELSE
   10 J=1
      END IF
      END
