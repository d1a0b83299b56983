C TURNS 6
      DO 10 I=1,2
      DO 10 J=1,4
   10 K=K+1
      END
