      DO 10, I = 3, 1, -(1)
      WRITE (6,20) I
   10 CONTINUE
   20 FORMAT (I2)
      END
