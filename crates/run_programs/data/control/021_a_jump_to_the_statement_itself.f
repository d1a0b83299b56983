C TURNS 24
      I=1
   10 GO TO 10
      END
