      LOGICAL L
      L=.TRUE..EQV.1/K.EQ.1
      END
