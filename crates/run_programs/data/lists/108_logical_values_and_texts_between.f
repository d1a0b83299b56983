      LOGICAL L
      L=.TRUE.
      WRITE (6,10) (I,I.EQ.2.AND.L,I=1,3)
   10 FORMAT (3(I1,L2:,'; '))
      END
