      INTEGER A(65536)
      WRITE (6,10) A
   10 FORMAT (L1)
      END
