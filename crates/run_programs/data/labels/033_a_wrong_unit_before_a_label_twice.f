      WRITE (5,10) 1
   10 FORMAT (I3)
   10 I=1
      END
