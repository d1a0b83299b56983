      INTEGER A(2)
      DATA A/1*3,1*4/
      WRITE (6,10) A
   10 FORMAT (2I2)
      END
