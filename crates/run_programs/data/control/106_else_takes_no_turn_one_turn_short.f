C TURNS 1
      IF (I.EQ.1) THEN
      I=2
      ELSE
      I=3
      END IF
      END
