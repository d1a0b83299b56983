      ITWO(ITWO)=2*ITWO+1
      WRITE (6,10) ITWO(4)
   10 FORMAT (I2)
      END
