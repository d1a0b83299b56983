C TURNS 2
      IF (I.EQ.0) THEN
      GO TO 10
   10 END IF
      I=1
      END
