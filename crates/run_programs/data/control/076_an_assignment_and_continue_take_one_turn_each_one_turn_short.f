C TURNS 1
      I=1
      CONTINUE
      END
