      INTEGER A(3)
      WRITE (5,10) A(1,1)
   10 FORMAT (I3)
      END
