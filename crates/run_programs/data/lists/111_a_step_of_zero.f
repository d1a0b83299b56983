      WRITE (6,10) (I,I=1,3,0)
   10 FORMAT (I2)
      END
