      LOGICAL L
      L=J(1)
      END
