      INTEGER A(3),B(2,2)
      K=3
      I=B(K,1/L)
      END
