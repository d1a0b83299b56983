      LOGICAL L(2,2,1,1,1,1,2)
      L(2,1,1,1,1,1,2)=.TRUE.
      WRITE (6,10) L
   10 FORMAT (8L2)
      END
