      WRITE (6,20) 1
      DO 10 I=1,9
   10 J=1/(7-I)
   20 FORMAT (I2)
      END
