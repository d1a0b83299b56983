      INTEGER A(3)
      DATA A/7,8,9/
      WRITE (6,10) (A(I),I=1,3)
      WRITE (6,10) (A(I),A(4-I),I=1,3)
   10 FORMAT (6I2)
      END
