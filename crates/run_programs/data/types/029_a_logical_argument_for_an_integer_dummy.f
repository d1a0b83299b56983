      ISQ(N)=N*N
      I=ISQ(.TRUE.)
      END
