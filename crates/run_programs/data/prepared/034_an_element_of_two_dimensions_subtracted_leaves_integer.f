      IMPLICIT INTEGER (A-Z)
      INTEGER B(2,9)
      J=2
      N=-2147483644
      DO 20 I=1,5
      B(J,I)=I
      K=N-B(J,I)
   20 CONTINUE
      END
