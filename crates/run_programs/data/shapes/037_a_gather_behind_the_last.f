      INTEGER A(20),B(20),P(20)
      DO 1 I=1,20
    1 P(I)=I
      P(15)=21
      DO 10 I=1,20
   10 A(I)=B(P(I))+1
      END
