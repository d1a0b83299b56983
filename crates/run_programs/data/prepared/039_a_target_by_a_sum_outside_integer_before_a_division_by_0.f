      IMPLICIT INTEGER (A-Z)
      INTEGER A(4)
      J=2147483647
      DO 20 I=1,5
      A(J+I)=1/K
   20 CONTINUE
      END
