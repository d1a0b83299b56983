C TURNS 3
      IF (I.EQ.1) THEN
      I=1
      ELSE IF (I.EQ.2) THEN
      I=2
      ELSE IF (I.EQ.3) THEN
      I=3
      ELSE
      I=4
      END IF
      END
