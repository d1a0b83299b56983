      NOUT=6
      WRITE (NOUT,10) 1
   10 FORMAT (I3)
      END
