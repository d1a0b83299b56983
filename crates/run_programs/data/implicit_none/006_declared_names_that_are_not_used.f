      IMPLICIT NONE
      INTEGER I,A(4),X
      LOGICAL B(2),L
      X=4
      WRITE (6,10) X
   10 FORMAT (I2)
      END
