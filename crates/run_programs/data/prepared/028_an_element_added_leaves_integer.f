      IMPLICIT INTEGER (A-Z)
      INTEGER A(9)
      J=2147483643
      DO 20 I=1,5
      A(I)=I
      K=J+A(I)
   20 CONTINUE
      END
