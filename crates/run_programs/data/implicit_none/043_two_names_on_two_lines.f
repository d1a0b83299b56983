      IMPLICIT NONE
      INTEGER I
      I=1
      IF (I.EQ.1) J=2
      K=3
      END
