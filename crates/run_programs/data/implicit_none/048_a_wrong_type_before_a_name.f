      IMPLICIT NONE
      INTEGER I
      I=.TRUE.
      J=2
      END
