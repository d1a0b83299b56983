      ISQ(J)=J*J
      IMPLICIT NONE
      END
