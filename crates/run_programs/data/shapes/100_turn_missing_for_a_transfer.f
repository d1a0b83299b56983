C TURNS 85
      INTEGER A(40),B(40)
      DO 10 I=1,40
   10 A(I)=MOD(I,4)
      DO 20 I=1,40
      IF (A(I).EQ.3) GO TO 20
      B(I)=1
   20 CONTINUE
      END
