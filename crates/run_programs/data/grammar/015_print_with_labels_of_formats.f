      PRINT 10,1,2
      PRINT 20
   10 FORMAT (I2)
   20 FORMAT ('.')
      END
