C TURNS 2
      I=1
      I=I/J
      END
