C TURNS 2
      IF (I.EQ.0) J=1
      END
