      LOGICAL L
      L=.TRUE..OR.1.EQ..TRUE.
      END
