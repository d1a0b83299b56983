      INTEGER A(3)
      DATA A/7,8,9/
      PRINT 10,A,(A(I),I=1,3),I,(A(I),I=3,1,-1),I
   10 FORMAT (11I2)
      END
