      INTEGER A(9)
      DO 10 I=1,9
      IF (A(I).GT.0) THEN
      K=1
      M=2
      ELSE IF (A(2*I).EQ.0) THEN
      K=3
      ELSE
      K=4
      M=5
      END IF
   10 CONTINUE
      END
