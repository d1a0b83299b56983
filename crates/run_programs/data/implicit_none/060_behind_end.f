      END
      IMPLICIT NONE
