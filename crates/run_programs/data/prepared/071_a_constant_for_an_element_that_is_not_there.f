      IMPLICIT INTEGER (A-Z)
      INTEGER A(5)
      DO 20 I=1,9
      K=K+I
      A(I)=5
   20 CONTINUE
      END
