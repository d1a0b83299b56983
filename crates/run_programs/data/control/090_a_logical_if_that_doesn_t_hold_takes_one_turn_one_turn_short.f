C TURNS 1
      IF (I.EQ.1) J=1
      I=2
      END
