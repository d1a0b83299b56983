      IMPLICIT INTEGER (A-Z)
      INTEGER A(8)
      J=1
      DO 20 I=1,5
      A(2*I)=J/(5-I)
   20 CONTINUE
      END
