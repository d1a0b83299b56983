      LOGICAL L
      I=2*(L)
      END
