      INTEGER A(3),B(2,2)
      K=1
      L=3
      I=B(K,L)+1/M
      END
