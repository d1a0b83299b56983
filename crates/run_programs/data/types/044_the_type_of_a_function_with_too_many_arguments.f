      LOGICAL L
      L=IABS(1,2)
      END
