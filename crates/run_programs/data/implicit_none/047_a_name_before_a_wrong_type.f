      IMPLICIT NONE
      INTEGER I
      J=2
      I=.TRUE.
      END
