      IMPLICIT NONE
      END
