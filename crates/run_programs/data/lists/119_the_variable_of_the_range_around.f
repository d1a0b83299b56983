      DO 10 I=1,2
   10 WRITE (6,20) (I,I=1,2)
   20 FORMAT (I2)
      END
