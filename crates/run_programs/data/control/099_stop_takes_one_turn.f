C TURNS 2
      I=1
      STOP
      END
