      IMPLICIT NONE (A-Z)
      END
