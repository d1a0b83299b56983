      WRITE (6,10) (I,I=1,3)
   10 FORMAT (3I2)
      END
