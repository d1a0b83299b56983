      LOGICAL L
      L=1/K.EQ.1.OR..TRUE.
      END
