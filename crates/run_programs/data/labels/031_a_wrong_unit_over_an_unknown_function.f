      WRITE (5,10) J(1)
   10 FORMAT (I3)
      END
