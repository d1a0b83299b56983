C TURNS 2
      I=1
      CONTINUE
      END
