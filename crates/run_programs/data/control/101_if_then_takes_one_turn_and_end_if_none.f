C TURNS 2
      CONTINUE
      IF (I.EQ.1) THEN
      I=2
      END IF
      END
