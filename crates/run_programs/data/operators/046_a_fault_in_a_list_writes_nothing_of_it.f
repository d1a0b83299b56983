      I=1
      WRITE (6,10) I
      WRITE (6,10) 2,1/K
   10 FORMAT (I2)
      END
