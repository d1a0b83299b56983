C TURNS 24
      I=2
   10 GO TO (20,10),I
   20 END
