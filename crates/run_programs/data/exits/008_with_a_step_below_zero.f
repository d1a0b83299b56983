      INTEGER A(12)
      DO 10 I=12,1,-1
      A(I)=I
      IF (A(I).EQ.8) GO TO 20
   10 CONTINUE
   20 WRITE (6,30) I,A
   30 FORMAT (13I3)
      END
