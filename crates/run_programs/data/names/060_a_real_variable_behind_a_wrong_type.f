      I=.TRUE.
      X=1
      END
