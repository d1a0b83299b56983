      IMPLICIT NONE
      INTEGER I
      I=1+
     1J
      END
