C TURNS 103
      INTEGER A(40)
      DO 10 I=1,40
   10 A(I)=I
      DO 20 I=1,40
      IF (A(I).GT.30) GO TO 30
   20 CONTINUE
   30 CONTINUE
      END
