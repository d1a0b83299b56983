      ISQ(N)=N*N
      DATA ISQ(1)/1/
      END
