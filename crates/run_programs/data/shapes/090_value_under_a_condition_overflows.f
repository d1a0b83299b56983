      INTEGER A(40),B(40)
      DO 10 I=1,40
   10 A(I)=100000000*MOD(I,21)
      DO 20 I=1,40
   20 IF (A(I).GT.500000000) B(I)=A(I)+A(I)
      END
