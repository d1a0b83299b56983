      DO I=1,2
      IMPLICIT NONE
      END DO
      END
