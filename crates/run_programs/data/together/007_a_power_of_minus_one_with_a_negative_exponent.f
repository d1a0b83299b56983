      WRITE (6,10) (-1)**(-3)
   10 FORMAT (I3)
      END
