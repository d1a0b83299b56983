      IMPLICIT NONE
      I=1
      END
