      IMPLICIT NONE
      INTEGER I
      IF (I.EQ.0.OR.N.EQ.1) I=2
      END
