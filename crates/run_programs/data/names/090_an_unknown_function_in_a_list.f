      WRITE (6,10) 1,NEXT(1)
   10 FORMAT (2I3)
      END
