      I=2147483647
      J=-I-1
      IF (I) 30,30,10
   10 IF (J) 20,30,30
   20 WRITE (6,40) I,J
   30 CONTINUE
   40 FORMAT (2I12)
      END
