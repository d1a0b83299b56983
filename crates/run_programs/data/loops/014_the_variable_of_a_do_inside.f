      DO 10 I=1,3
      DO 10 I=1,2
   10 K=K+1
      END
