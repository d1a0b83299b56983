      IMPLICIT NONE
      DIMENSION M(3)
      M(1)=1
      END
