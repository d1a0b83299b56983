      WRITE (6,10) (I.EQ.1,I=1,2)
   10 FORMAT (L2,I2)
      END
