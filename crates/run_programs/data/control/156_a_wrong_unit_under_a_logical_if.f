      IF (I.EQ.0) WRITE (5,10) I
   10 FORMAT (I3)
      END
