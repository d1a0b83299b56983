C TURNS 2
      IF (I.EQ.1) J=1
      I=2
      END
