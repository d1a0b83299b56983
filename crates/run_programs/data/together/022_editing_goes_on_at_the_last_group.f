      WRITE (6,10) (I,I=1,6)
   10 FORMAT (I2,2(I3))
      END
