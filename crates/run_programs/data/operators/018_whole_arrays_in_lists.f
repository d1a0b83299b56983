      INTEGER A(2,2)
      LOGICAL L(2)
      DATA A/1,2,3,4/,L/.TRUE.,.FALSE./
      WRITE (6,10) A
      WRITE (6,20) L,A,5
      PRINT 10,A,A
   10 FORMAT (4I2)
   20 FORMAT (2L2,5I3)
      END
