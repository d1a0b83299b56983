C TURNS 2
      IF (I.EQ.0) STOP 5
      END
