      IMPLICIT INTEGER (A-Z)
      INTEGER A(4),L(9)
      DO 20 I=1,5
      L(I)=I
      K=A(L(I))
   20 CONTINUE
      END
