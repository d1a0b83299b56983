C TURNS 66
      INTEGER A(40),B(40)
      DO 10 I=1,40
   10 A(I)=MOD(I,4)
      DO 20 I=1,40
      B(I)=A(I)
   20 IF (A(I).EQ.3) B(I)=1
      END
