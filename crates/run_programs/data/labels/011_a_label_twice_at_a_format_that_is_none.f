   10 FORMAT (I3)
   10 FORMAT (A3)
      END
