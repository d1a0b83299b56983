      IMPLICIT INTEGER (A-Z)
      DO 20 I=1,5
      IF (I.LT.2) THEN
      K=10
      ELSE IF (12/(4-I).GT.3) THEN
      K=20
      ELSE
      K=30
      END IF
   20 CONTINUE
      END
