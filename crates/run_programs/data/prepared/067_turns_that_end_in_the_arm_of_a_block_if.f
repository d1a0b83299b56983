C TURNS 6
      IMPLICIT INTEGER (A-Z)
      DO 20 I=1,3
      IF (I.EQ.1) THEN
      K=10
      ELSE IF (I.EQ.2) THEN
      K=20
      ELSE
      K=30
      END IF
   20 CONTINUE
      END
