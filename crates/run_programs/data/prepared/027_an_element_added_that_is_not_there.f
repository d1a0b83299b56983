      IMPLICIT INTEGER (A-Z)
      INTEGER A(4)
      J=2
      DO 20 I=1,5
      K=J+A(I)
   20 CONTINUE
      END
