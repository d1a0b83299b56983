      WRITE (6,10) 42
   10 FORMAT (1X,I5)
      END
