      INTEGER A(-1:1)
      DATA A(-1),A(1)/5,6/
      WRITE (6,10) A
   10 FORMAT (3I2)
      END
