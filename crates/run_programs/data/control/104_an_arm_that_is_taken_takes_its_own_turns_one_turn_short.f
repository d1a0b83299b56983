C TURNS 1
      IF (I.EQ.0) THEN
      I=2
      END IF
      END
