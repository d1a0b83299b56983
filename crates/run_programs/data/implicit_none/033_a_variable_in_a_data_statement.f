      IMPLICIT NONE
      INTEGER I
      DATA I,J/1,2/
      END
