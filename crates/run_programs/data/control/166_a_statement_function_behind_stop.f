      STOP
      ISQ(N)=N*N
      END
