      IMPLICIT NONE
      INTEGER A(N)
      END
