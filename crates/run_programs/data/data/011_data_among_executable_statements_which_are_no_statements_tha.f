      I=I+1
      DATA I/41/
      WRITE (6,10) I
      DATA J/7/
      I=J
      WRITE (6,10) I
   10 FORMAT (I3)
      END
