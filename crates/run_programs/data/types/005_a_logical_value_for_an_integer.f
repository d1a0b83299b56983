      I=.TRUE.
      END
