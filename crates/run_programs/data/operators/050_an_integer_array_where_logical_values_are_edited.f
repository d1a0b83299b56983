      LOGICAL L(2)
      INTEGER A(2)
      L(1)=.TRUE.
      WRITE (6,10) L,A
   10 FORMAT (2L2)
      END
