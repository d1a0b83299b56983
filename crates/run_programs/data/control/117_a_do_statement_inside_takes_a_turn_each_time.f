C TURNS 9
      DO 10 I=1,2
      DO 10 J=1,3
   10 K=K+1
      END
