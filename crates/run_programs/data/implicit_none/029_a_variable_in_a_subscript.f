      IMPLICIT NONE
      INTEGER A(3)
      A(I)=1
      END
