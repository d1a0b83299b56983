C TURNS 1
      WRITE (6,10) (I,I=1,4)
      PRINT 10,5
   10 FORMAT (I2)
      END
