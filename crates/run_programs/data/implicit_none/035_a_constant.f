      IMPLICIT NONE
      INTEGER I
      PARAMETER (I=1,N=2)
      END
