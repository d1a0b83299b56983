      INTEGER A(12)
      DO 10 I=1,12
      A(I)=I
   10 IF (A(I).EQ.5) GO TO 20
      I=99
   20 WRITE (6,30) I,A(5),A(6),A(12)
   30 FORMAT (4I3)
      END
