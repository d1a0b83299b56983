      WRITE (6,10) 1
      WRITE (*,FMT=10) 2
      WRITE (UNIT=6,FMT=10) 3
      WRITE (FMT=10,UNIT=*) 4
   10 FORMAT (I2)
      END
