      PARAMETER (N=2)
      IMPLICIT NONE
      INTEGER I
      I=N
      END
