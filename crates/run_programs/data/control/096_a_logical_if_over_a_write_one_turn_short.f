C TURNS 2
      WRITE (6,10) I
      IF (I.EQ.0) WRITE (6,10) 7
   10 FORMAT (I2)
      END
