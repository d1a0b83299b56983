      INTEGER A(6),L(6)
      DO 20 I=1,6
      DO 10 J=1,4
      IF (J.GT.I) GO TO 20
   10 A(I)=A(I)+J
   20 L(I)=J
      WRITE (6,30) I,J,A,L
   30 FORMAT (14I3)
      END
