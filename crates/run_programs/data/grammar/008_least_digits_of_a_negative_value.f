      WRITE (6,10) -3
   10 FORMAT (1X,I5.2)
      END
