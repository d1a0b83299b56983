      ISQ(N)=N*N
      ISQ=3
      END
