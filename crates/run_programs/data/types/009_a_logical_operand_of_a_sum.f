      I=1+.TRUE.
      END
