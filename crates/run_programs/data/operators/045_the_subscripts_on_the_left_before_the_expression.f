      INTEGER A(3)
      A(4)=1/K
      END
