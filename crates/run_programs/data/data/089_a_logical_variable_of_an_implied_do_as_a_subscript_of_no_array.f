      LOGICAL L
      DATA (J(L),L=1,2)/2*1/
      END
