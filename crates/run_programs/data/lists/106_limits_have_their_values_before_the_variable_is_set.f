      I=2
      WRITE (6,10) (I,I=I,I+2)
      N=2
      WRITE (6,10) (N,I=1,N)
   10 FORMAT (3I2)
      END
