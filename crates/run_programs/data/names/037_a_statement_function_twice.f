      ISQ(N)=N*N
      ICUBE(N)=N*N*N
      ISQ(N)=N**2
      I=ISQ(2)
      END
