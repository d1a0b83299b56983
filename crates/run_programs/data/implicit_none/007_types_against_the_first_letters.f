      IMPLICIT NONE
      LOGICAL I,N(3)
      INTEGER A,Z(2)
      DATA A,Z/1,2,3/
      I=A.LT.Z(1)
      N(2)=I
      WRITE (6,10) I,N,A,Z
   10 FORMAT (4L2,3I2)
      END
