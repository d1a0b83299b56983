C TURNS 2
      GO TO (10),I
      GO TO (10),I+1
   10 I=2
      END
