      IMPLICIT INTEGER (A-Z)
      INTEGER A(3)
      DO 20 I=1,5
      IF (I.LT.6) THEN
      A(I)=12/(4-I)
      ELSE
      K=20
      END IF
   20 CONTINUE
      END
