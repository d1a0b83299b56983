      IMPLICIT NONE
      IMPLICIT NONE
      INTEGER I
      I=1
      END
