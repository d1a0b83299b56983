      IMPLICIT INTEGER (A-Z)
      INTEGER A(2:6)
      DO 20 I=6,1,-1
      A(I)=K
      K=K+I
   20 CONTINUE
      END
