      IMPLICIT NONE
      INTEGER J
      ISQ(J)=J*J
      END
