      LOGICAL L
      L=.NOT.I
      END
