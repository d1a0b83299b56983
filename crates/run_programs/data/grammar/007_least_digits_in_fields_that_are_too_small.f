      WRITE (6,10) -12,5,0
   10 FORMAT (2I3.3,I2.1)
      END
