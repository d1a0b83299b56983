C TURNS 1
      IF (I.EQ.0) STOP 5
      END
