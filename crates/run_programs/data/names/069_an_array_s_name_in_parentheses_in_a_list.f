      INTEGER A(3)
      WRITE (6,10) (A)
   10 FORMAT (3I3)
      END
