C TURNS 1
      I=1
      I=I/J
      END
