      DO 10 I=1,3
   10 PRINT '(I2)',I**I
      END
