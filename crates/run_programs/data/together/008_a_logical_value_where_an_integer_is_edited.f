      WRITE (6,10) 7,.TRUE.
   10 FORMAT (I3)
      END
