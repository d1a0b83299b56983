      INTEGER A(3),B(3)
      DATA (A(1),B=1,1)/1/
      END
