      PROGRAM XMAIN
      IMPLICIT NONE
      INTEGER I
      I=5
      WRITE (6,10) I
   10 FORMAT (I2)
      END
