   20 IMPLICIT NONE
      INTEGER I
      I=3
      WRITE (6,10) I
   10 FORMAT (I2)
      END
