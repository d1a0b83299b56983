      WRITE (6,10)
   10 FORMAT (L3,'A')
      END
