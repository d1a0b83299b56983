      ISQ(N)=N*N
      DO 10 I=1,3
   10 M(I)=I
      END
