C TURNS 15
      INTEGER A(9)
      DO 10 I=1,9
      A(I)=I
      IF (A(I).GT.5) THEN
      K=1
      M=2
      ELSE IF (A(I).EQ.4) THEN
      K=3
      K=4
      END IF
   10 CONTINUE
      END
