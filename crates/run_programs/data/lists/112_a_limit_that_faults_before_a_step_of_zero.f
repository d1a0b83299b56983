      I=2147483647
      WRITE (6,10) (J,J=1,I+1,0)
   10 FORMAT (I2)
      END
