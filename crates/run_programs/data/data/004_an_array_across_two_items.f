      INTEGER A(3),B(2)
      DATA A,I,B/2*4,3*5,6/
      WRITE (6,10) A,I,B
   10 FORMAT (6I2)
      END
