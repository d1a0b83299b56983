      INTEGER A(2,2)
      K=2147483647
      A(2,K+1)=1
      END
