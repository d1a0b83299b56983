      IMPLICIT NONE
      INTEGER A(2,3),I,J
      DATA ((A(I,J),J=1,3),I=1,2)/1,2,3,4,5,6/
      WRITE (6,10) A,((A(I,J),J=1,3),I=1,2)
   10 FORMAT (6I2)
      END
