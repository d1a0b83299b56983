C TURNS 7
      DO 10 I=1,3
      J=I
   10 CONTINUE
      END
