      INTEGER A(3)
      A(1,1)=5
      END
