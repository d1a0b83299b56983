      LOGICAL L
      WRITE (6,10) (I,L=1,2)
   10 FORMAT (I2)
      END
