      IMPLICIT INTEGER (A-Z)
      INTEGER A(4)
      DO 20 I=1,5
      IF (I.GT.3) A(I+1)=I
   20 CONTINUE
      END
