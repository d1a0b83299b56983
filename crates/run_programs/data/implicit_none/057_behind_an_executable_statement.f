      I=1
      IMPLICIT NONE
      END
