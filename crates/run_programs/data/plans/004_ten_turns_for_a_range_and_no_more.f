C TURNS 10
      DO 10 I=1,9
   10 J=J+1
      WRITE (6,20) J
   20 FORMAT (I2)
      END
