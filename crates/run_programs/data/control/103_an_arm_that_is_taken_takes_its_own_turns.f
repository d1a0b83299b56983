C TURNS 2
      IF (I.EQ.0) THEN
      I=2
      END IF
      END
