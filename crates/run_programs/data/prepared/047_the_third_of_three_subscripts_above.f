      IMPLICIT INTEGER (A-Z)
      INTEGER C(2,2,4)
      J=1
      DO 20 I=1,5
      K=C(J,J,I)
   20 CONTINUE
      END
