      J=7
      WRITE (6,10) (J,I=1,65535)
      WRITE (6,20) I,J
   10 FORMAT (80I1)
   20 FORMAT (I6,I2)
      END
