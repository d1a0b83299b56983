      PROGRAM SUMS
      I=MAX(2,ABS(-5),DIM(9,1))
      WRITE (6,10) I
   10 FORMAT (I3)
      END
