      INTEGER A(20)
      K=3
      DO 10 I=1,30
      K=K+2
      IF (A(I).GT.K) GO TO 20
   10 CONTINUE
   20 CONTINUE
      END
