      WRITE (6,10) -1000,7,0
   10 FORMAT (I3,I5.3,I4.0,5X)
      END
