      IMPLICIT INTEGER (A-Z)
      INTEGER A(4)
      J=1
      DO 20 I=1,5
      A(I)=J/(5-I)
   20 CONTINUE
      END
