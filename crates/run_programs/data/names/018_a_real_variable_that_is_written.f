      I=1
      WRITE (6,10) I,TOTAL
   10 FORMAT (2I3)
      END
