   10 FORMAT (I2)
      IMPLICIT NONE
      INTEGER X
      X=3
      WRITE (6,10) X
      END
