      WRITE (6,20) 1
   10 FORMAT (I3)
      END
