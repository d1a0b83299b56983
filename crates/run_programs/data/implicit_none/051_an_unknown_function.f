      IMPLICIT NONE
      INTEGER I
      I=IFUN(1)
      END
