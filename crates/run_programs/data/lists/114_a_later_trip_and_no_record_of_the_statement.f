      WRITE (6,10) (I,I=1,2)
      WRITE (6,10) (1/(3-I),I=1,3)
   10 FORMAT (I2)
      END
