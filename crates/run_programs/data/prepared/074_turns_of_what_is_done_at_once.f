      IMPLICIT INTEGER (A-Z)
      INTEGER A(4)
      DO 20 I=1,4
      A(I)=7
      K=I
      A(I)=K
      IF (I.GT.2) GO TO 20
      N=I+K
      IF (N.LE.2) A(I)=3
   20 CONTINUE
      END
