      I=3
      IF (I.EQ.1) THEN
      STOP 1
      ELSE IF (I.EQ.3) THEN
      IF (I.EQ.3) STOP 3
      STOP 2
      ELSE
      STOP 4
      END IF
      STOP 5
      END
