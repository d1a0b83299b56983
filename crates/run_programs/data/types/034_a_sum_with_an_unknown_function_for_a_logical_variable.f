      LOGICAL L
      L=J(1)+1
      END
