      INTEGER A(40),B(40)
      DO 10 I=1,40
   10 A(I)=2147483607+I
      M=0
      DO 20 I=1,40
      IF (A(I)+10.GT.M) B(I)=1
   20 CONTINUE
      END
