      IMPLICIT INTEGER (A-Z)
      INTEGER B(9,4)
      J=2
      DO 20 I=1,5
      K=J+B(J,I)
   20 CONTINUE
      END
