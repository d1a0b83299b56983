      WRITE (6,10)
   10 FORMAT (/)
      END
