      INTEGER A(12)
      DO 10 I=2,12
      A(I)=A(I-1)+1
      IF (A(I).EQ.4) GO TO 20
   10 CONTINUE
   20 WRITE (6,30) I,A
   30 FORMAT (13I3)
      END
