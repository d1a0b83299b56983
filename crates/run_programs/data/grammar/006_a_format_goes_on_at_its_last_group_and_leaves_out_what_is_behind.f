      WRITE (6,10) 1,2,3,4
   10 FORMAT (I3,2(I2,'-'),'Z')
      END
