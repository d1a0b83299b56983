      IF (I.EQ.0) IMPLICIT NONE
      END
