      IMPLICIT INTEGER (A-Z)
      INTEGER B(9,4)
      J=2
      DO 20 I=1,5
      K=B(I+2147483647,J)
   20 CONTINUE
      END
