      LOGICAL L
      L=.TRUE..AND.1/K.EQ.1
      END
