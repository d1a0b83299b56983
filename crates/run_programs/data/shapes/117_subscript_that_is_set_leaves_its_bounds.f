      INTEGER A(10)
      DO 10 I=1,10
   10 A(I)=-I
      K=8
      DO 20 I=1,10
      IF (A(I).GE.A(K)) K=K+1
   20 CONTINUE
      END
