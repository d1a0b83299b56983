      IMPLICIT INTEGER (A-Z)
      INTEGER A(4)
      DO 20 I=1,5
      IF (A(I).GT.0) K=1
   20 CONTINUE
      END
