      IMPLICIT NONE
      INTEGER K
      K=1
      DO I=1,3
      K=K+1
      END DO
      END
