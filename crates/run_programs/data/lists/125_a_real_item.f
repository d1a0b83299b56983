      WRITE (6,10) (X,I=1,2)
   10 FORMAT (I2)
      END
