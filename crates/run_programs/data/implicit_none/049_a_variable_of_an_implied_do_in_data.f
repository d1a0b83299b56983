      IMPLICIT NONE
      INTEGER A(3)
      DATA (A(I),I=1,3)/1,2,3/
      END
