   10 ISQ(N)=N*N
   20 FORMAT (2I3)
      DATA K/2/
      ICUBE(N)=N*ISQ(N)
      WRITE (6,20) ISQ(K),ICUBE(K)
      END
