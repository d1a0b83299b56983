      WRITE (6,10) 1
      WRITE (6,10) (I,I=2,4),.TRUE.
   10 FORMAT (I2)
      END
