C TURNS 4
      DO 10 I=1,2
      J=I
   10 WRITE (6,20) I
   20 FORMAT (I2)
      END
