      ICUBE(N)=N*ISQ(N)
      ISQ(N)=N*N
      END
