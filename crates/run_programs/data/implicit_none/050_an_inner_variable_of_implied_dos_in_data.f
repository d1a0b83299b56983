      IMPLICIT NONE
      INTEGER A(2,2),B(2),I
      DATA (B(I),I=1,2)/1,2/
      DATA ((A(I,J),J=1,2),I=1,2)/1,2,3,4/
      END
