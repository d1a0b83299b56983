      INTEGER A(20),B(20),P(20)
      DO 10 I=1,20
   10 A(I)=2*B(P(I))
      END
