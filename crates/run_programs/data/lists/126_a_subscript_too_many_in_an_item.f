      INTEGER A(2)
      WRITE (6,10) (A(I,1),I=1,2)
   10 FORMAT (I2)
      END
