      LOGICAL L
      DATA L/1/
      END
