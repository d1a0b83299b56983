      LOGICAL L
      L=.TRUE..OR.I
      END
