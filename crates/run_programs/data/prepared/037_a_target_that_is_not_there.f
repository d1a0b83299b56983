      IMPLICIT INTEGER (A-Z)
      INTEGER A(4)
      DO 20 I=1,5
      A(I)=I
   20 CONTINUE
      END
