      ISQ(N)=N*N
      IHYP(M,N)=ISQ(M)+ISQ(N)
      IFOUR(N)=ISQ(ISQ(N))
      WRITE (6,10) ISQ(-3),IHYP(3,4),IFOUR(ISQ(2)+1),ISQ(IHYP(1,1))
   10 FORMAT (4I6)
      END
