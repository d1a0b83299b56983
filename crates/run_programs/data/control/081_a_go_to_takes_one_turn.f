C TURNS 3
      I=1
      GO TO 10
   10 I=2
      END
