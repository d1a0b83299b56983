      ISQ(N)=N*N
      IBAD(N)=ISQ(ISQ(LATER(N)))
      LATER(N)=N
      END
