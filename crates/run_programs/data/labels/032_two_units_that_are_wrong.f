      WRITE (5,10) 1
      WRITE (7,10) 1
   10 FORMAT (I3)
      END
