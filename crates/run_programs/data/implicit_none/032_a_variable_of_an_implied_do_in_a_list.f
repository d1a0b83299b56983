      IMPLICIT NONE
      INTEGER A(3)
      WRITE (6,10) (A(I),I=1,3)
   10 FORMAT (3I2)
      END
