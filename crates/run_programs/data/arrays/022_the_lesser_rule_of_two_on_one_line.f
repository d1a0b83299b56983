      INTEGER A(2)
      A(1,1)=N(1)
      END
