      INTEGER A(40),B(40)
      DO 10 I=1,40
   10 A(I)=100000000*MOD(I,21)
      DO 20 I=1,40
      IF (A(I).LE.500000000) GO TO 20
      B(I)=A(I)+A(I)
   20 CONTINUE
      END
