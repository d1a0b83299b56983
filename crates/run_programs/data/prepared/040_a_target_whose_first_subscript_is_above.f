      IMPLICIT INTEGER (A-Z)
      INTEGER B(4,9)
      J=2
      DO 20 I=1,5
      B(I,J)=I
   20 CONTINUE
      END
