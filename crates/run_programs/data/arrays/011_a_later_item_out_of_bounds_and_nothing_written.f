      INTEGER A(2)
      WRITE (6,10) A(1)
      WRITE (6,10) A(2),A(3)
   10 FORMAT (I2)
      END
