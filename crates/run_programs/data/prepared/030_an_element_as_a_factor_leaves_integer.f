      IMPLICIT INTEGER (A-Z)
      INTEGER A(9)
      J=429496730
      DO 20 I=1,5
      A(I)=I
      K=J*A(I)
   20 CONTINUE
      END
