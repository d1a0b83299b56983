      I=1
   10 FORMAT (I3,A3)
      END
