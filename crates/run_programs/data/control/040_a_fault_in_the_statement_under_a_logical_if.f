      WRITE (6,10) I
   10 FORMAT (I2)
      I=1
      IF (I.EQ.1) K=I/J
      END
