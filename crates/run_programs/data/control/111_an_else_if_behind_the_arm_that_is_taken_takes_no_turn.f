C TURNS 3
      IF (I.EQ.0) THEN
      I=1
      ELSE IF (I.EQ.1) THEN
      I=2
      ELSE IF (I.EQ.1) THEN
      I=3
      END IF
      I=4
      END
