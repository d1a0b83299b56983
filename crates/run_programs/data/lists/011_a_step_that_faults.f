      N=2147483647
      PRINT 10,(I,I=1,2,N+1)
   10 FORMAT (I2)
      END
