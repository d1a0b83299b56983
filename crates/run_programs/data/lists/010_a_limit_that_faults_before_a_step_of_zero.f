      PRINT 10,(I,I=1,1/J,0)
   10 FORMAT (I2)
      END
