      IMPLICIT INTEGER (A-Z)
      INTEGER A(4)
      DO 20 I=1,5
      K=A(I)
   20 CONTINUE
      END
