      WRITE (6,10) 1
   10 FORMAT (I2)
      IF (I.EQ.0) J=0**0
      WRITE (6,10) 2
      END
