      IF (I.EQ.1) THEN
   10 J=1
      ELSE
      GO TO 10
      END IF
      END
