      INTEGER M(3)
      I=1
      M(I)=I+5
      WRITE (6,10) M
   10 FORMAT (3I2)
      END
