      PARAMETER (X=3)
      INTEGER X
      WRITE (6,10) X,2*X
   10 FORMAT (I2,I3)
      END
