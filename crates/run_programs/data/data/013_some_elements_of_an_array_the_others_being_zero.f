      INTEGER A(5)
      LOGICAL L(3)
      DATA A(2),A(4)/2,4/
      DATA L(2)/.TRUE./
      WRITE (6,10) A,L
   10 FORMAT (5I2,3L2)
      END
