      WRITE (6,90) 1,2
      PRINT 90,3
      PRINT 90
   90 FORMAT (2(I2,'.'))
   91 FORMAT (L5)
      END
