      WRITE (6,10) ((I,I=1,2),I=1,2)
   10 FORMAT (I2)
      END
