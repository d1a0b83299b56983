      INTEGER A(40),B(40)
      DO 10 I=1,40
   10 A(I)=I
      DO 20 I=1,40
      IF (A(I).GT.30) B(I+5)=1
   20 CONTINUE
      END
