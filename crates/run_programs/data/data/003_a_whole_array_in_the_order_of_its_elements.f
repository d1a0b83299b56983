      INTEGER A(2,3)
      DATA A/11,21,12,22,13,23/
      WRITE (6,10) A(1,1),A(2,1),A(1,2),A(2,2),A(1,3),A(2,3)
   10 FORMAT (6I3)
      END
