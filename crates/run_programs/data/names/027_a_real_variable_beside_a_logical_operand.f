      I=1+.TRUE.+X
      END
