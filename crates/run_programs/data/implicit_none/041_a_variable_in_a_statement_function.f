      IMPLICIT NONE
      INTEGER ISQ,J
      ISQ(J)=J*M
      END
