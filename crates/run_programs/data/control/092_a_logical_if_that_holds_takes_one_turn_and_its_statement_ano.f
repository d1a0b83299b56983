C TURNS 1
      IF (I.EQ.0) J=1
      END
