      WRITE (6,10) 1,2
   10 FORMAT (2(I2,:,','))
      END
