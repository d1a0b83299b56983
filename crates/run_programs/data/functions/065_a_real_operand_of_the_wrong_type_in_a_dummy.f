      N(X+.TRUE.)=1
      END
