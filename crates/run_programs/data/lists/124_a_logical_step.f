      WRITE (6,10) (I,I=1,2,I.EQ.1)
   10 FORMAT (I2)
      END
