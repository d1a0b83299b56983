      WRITE (6/0,10) 1
   10 FORMAT (I3)
      END
