      ISQ(N)=N*N
      I=ISQ+1
      END
