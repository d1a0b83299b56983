      IMPLICIT NONE
      INTEGER ISQ,J
      ISQ(J,K)=J*J
      END
