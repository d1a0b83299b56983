      IMPLICIT NONE
      DIMENSION A(2),L(2)
      INTEGER A
      LOGICAL L
      A(2)=7
      L(1)=.TRUE.
      WRITE (6,10) A,L
   10 FORMAT (2I2,2L2)
      END
