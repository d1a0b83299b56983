      IMPLICIT NONE
      WRITE (6,10) K
   10 FORMAT (I2)
      END
