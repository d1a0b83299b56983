      WRITE (6,10) 1,2
   10 FORMAT (I3,('A'))
      END
