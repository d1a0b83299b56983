      N(1+.TRUE.)=1
      END
