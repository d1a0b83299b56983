      INTEGER A(9)
      DO 20 I=1,9
      DO 10 J=1,3
      K=10*I+J
      A(I)=K
      IF (K.EQ.52) GO TO 30
   10 CONTINUE
   20 CONTINUE
      I=99
   30 WRITE (6,40) I,J,K,A(4),A(5),A(6)
   40 FORMAT (6I3)
      END
