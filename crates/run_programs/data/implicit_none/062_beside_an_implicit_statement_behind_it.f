      IMPLICIT NONE
      IMPLICIT INTEGER (A-Z)
      I=1
      END
