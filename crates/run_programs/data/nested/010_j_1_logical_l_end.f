      J=1
      LOGICAL L
      END
