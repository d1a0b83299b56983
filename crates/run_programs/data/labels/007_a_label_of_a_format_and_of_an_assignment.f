   10 FORMAT (I3)
   10 I=1
      WRITE (6,10) I
      END
