      INTEGER A(12)
      DATA N/2/
      DO 10 I=1,12
      A(I)=1
      IF (I.EQ.N) GO TO 20
   10 CONTINUE
   20 DO 30 J=1,12
   30 K=K+A(J)
      WRITE (6,40) I,K
   40 FORMAT (2I3)
      END
