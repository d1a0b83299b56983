      IMPLICIT INTEGER (A-Z)
      INTEGER A(4),P(9)
      DO 20 I=1,9
      P(I)=I
      IF (I.LT.2) THEN
      K=10
      ELSE
      A(P(I))=I
      END IF
   20 CONTINUE
      END
