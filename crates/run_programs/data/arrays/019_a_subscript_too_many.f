      INTEGER A(2)
      A(1,1)=0
      END
