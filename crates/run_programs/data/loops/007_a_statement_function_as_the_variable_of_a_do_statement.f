      ISQ(N)=N*N
      DO 10 ISQ=1,3
   10 CONTINUE
      END
