      INTEGER A(3),B(2,2)
      A(4)=1/K
      END
