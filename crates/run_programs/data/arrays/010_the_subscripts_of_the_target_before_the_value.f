      INTEGER A(2)
      K=2147483647
      A(3)=K+1
      END
