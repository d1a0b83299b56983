      IF (I.EQ.1) STOP 'NOT HERE'
      WRITE (6,10) I
   10 FORMAT (I2)
      END
