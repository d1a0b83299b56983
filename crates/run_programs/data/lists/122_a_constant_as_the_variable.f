      PARAMETER (N=1)
      WRITE (6,10) (I,N=1,2)
   10 FORMAT (I2)
      END
