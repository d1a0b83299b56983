      WRITE (6,10) MOD(7,3),MOD(-7,3),MOD(7,-3),MOD(-7,-3),MOD(6,3)
      WRITE (6,10) MOD(2,7),MOD(-2,7),MOD(5,1),MOD(-5,-1),MOD(0,3)
   10 FORMAT (5I3)
      END
