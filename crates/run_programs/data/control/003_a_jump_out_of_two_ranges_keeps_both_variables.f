      INTEGER A(5,5)
      A(3,4)=1
      DO 20 I=1,5
      DO 10 J=1,5
      IF (A(I,J).EQ.1) GO TO 30
   10 K=K+1
   20 CONTINUE
   30 WRITE (6,40) I,J,K
   40 FORMAT (3I4)
      END
