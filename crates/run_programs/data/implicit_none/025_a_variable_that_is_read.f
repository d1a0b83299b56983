      IMPLICIT NONE
      INTEGER I
      I=J+1
      END
