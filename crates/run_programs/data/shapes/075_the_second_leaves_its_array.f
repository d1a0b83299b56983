      INTEGER A(40),B(20)
      DO 10 I=1,40
      K=K+A(I)
      B(I)=K
   10 CONTINUE
      END
