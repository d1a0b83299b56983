      INTEGER A(65536)
      WRITE (6,10) A,1
   10 FORMAT (I1)
      END
