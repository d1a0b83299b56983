      INTEGER A(3)
      DATA A/1,2,3/
      PRINT 10,(A,I,I=1,2)
   10 FORMAT (4I2)
      END
