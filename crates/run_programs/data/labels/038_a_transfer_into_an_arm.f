      GO TO 10
      IF (I.EQ.1) THEN
   10 J=1
      END IF
      END
