      IMPLICIT INTEGER (A-Z)
      DO 20 I=1,4
      IF (I.EQ.1) THEN
      K=10
      ELSE IF (I.EQ.2) THEN
      K=20
      ELSE IF (I.EQ.3) THEN
      K=30
      END IF
   20 CONTINUE
      END
