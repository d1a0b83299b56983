      WRITE (6,10) 1
   10 FORMAT (I2/'A':I2,'B')
      END
