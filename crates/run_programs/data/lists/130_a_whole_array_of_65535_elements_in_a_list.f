      INTEGER A(65535)
      WRITE (6,10) (A,I=1,1)
   10 FORMAT (255(257I1))
      END
