C TURNS 134
      INTEGER A(40),B(40)
      DO 10 I=1,40
   10 A(I)=MOD(I,4)
      DO 20 I=1,40
      IF (A(I).EQ.3) B(I)=1
   20 CONTINUE
      IF (B(3).EQ.0) STOP
      IF (B(4).NE.0) STOP
      END
