      LOGICAL L
      INTEGER A(3)
      L=A(1,2)
      END
