      IMPLICIT NONE
      INTEGER I
      DO I=1,N
      END DO
      END
