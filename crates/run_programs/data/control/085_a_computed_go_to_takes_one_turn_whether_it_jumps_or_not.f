C TURNS 3
      GO TO (10),I
      GO TO (10),I+1
   10 I=2
      END
