      IMPLICIT INTEGER (A-Z)
      INTEGER B(9,4)
      J=2
      N=2147483643
      DO 20 I=1,5
      B(J,I)=N+I
   20 CONTINUE
      END
