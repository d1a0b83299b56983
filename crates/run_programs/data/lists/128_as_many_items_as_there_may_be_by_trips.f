      WRITE (6,10) (I,I=1,65535)
   10 FORMAT (I1)
      END
