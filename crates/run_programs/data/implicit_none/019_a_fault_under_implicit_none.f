      IMPLICIT NONE
      INTEGER I,J
      DO I=1,5
      WRITE (6,10) I
      J=6/(3-I)
      END DO
   10 FORMAT (I2)
      END
