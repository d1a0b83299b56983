C TURNS 1
      IF (I) 20,10,20
   10 I=2
   20 END
