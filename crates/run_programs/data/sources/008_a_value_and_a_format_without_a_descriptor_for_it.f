      WRITE (6,10) 1
   10 FORMAT (3X)
      END
