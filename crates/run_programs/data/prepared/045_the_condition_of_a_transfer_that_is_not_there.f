      IMPLICIT INTEGER (A-Z)
      INTEGER A(4)
      DO 20 I=1,5
      IF (A(I).EQ.0) GO TO 20
   20 CONTINUE
      END
