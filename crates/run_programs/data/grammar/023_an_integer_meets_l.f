      WRITE (6,10) 1
   10 FORMAT (L1)
      END
