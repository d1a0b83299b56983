C TURNS 2
      DO 10 I=2,1
   10 J=1
      J=2
      END
