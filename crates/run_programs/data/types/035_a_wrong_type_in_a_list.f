      WRITE (6,10) 1+.TRUE.
   10 FORMAT (I3)
      END
