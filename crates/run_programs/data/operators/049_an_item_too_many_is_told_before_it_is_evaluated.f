      INTEGER A(32768)
      WRITE (6,10) A,A,1/K
   10 FORMAT (I1)
      END
