      LOGICAL L
      L=1
      END
