      WRITE (6,10) (I,I=1,.TRUE.)
   10 FORMAT (I2)
      END
