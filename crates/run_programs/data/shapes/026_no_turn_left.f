C TURNS 1
      DO 10 I=1,5
   10 K=I
      END
