      IMPLICIT NONE
      INTEGER ISQ
      ISQ(J)=J*J
      END
