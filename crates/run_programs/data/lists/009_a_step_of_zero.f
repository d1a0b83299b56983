      WRITE (6,10) 1
   10 FORMAT (I2)
      WRITE (6,10) 2,(I,I=1,3,J)
      END
