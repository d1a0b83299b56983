      WRITE (6,10) 1,2,3,4,5,6
   10 FORMAT (I2,2(I3))
      END
