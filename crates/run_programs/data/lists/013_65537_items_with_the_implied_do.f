      WRITE (6,10) 1
   10 FORMAT (I1)
      WRITE (6,10) (I,I=1,65536)
      END
