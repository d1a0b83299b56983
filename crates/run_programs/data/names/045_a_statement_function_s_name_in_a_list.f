      ISQ(N)=N*N
      WRITE (6,10) ISQ
   10 FORMAT (I3)
      END
