      WRITE (6,10) 1
   10 FORMAT (I2)
      WRITE (6,10) 2,3,(6/(4-I),I=1,5)
      END
