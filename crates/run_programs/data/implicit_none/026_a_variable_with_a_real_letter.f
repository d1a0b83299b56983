      IMPLICIT NONE
      INTEGER I
      X=I
      END
