      INTEGER A(3)
      WRITE (6,10) (A(I),I=1,4)
   10 FORMAT (I2)
      END
