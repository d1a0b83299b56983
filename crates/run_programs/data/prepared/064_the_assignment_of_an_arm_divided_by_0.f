      IMPLICIT INTEGER (A-Z)
      DO 20 I=1,5
      IF (I.LT.2) THEN
      K=10
      ELSE IF (I.LT.5) THEN
      K=12/(4-I)
      ELSE
      K=30
      END IF
   20 CONTINUE
      END
