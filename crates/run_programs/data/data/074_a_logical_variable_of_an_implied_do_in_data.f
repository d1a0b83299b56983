      LOGICAL L
      INTEGER A(3)
      DATA (A(1),L=1,1)/1/
      END
