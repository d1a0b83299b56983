      LOGICAL L
      L=1.AND.L
      END
