      LOGICAL L
      I=-L
      END
