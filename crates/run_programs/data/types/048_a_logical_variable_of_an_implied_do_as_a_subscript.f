      LOGICAL L
      INTEGER A(3)
      DATA (A(L),L=1,3)/3*1/
      END
