      IMPLICIT NONE
      INTEGER I
      I=MOD
      END
