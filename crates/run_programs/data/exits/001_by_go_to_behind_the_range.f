      INTEGER A(12)
      DO 10 I=1,12
      A(I)=I
      IF (I.EQ.5) GO TO 20
   10 A(I)=2*I
   20 WRITE (6,30) I,A
   30 FORMAT (13I3)
      END
