      INTEGER A(12)
      DATA N/6/
      DO 10 I=1,12
      A(I)=1
      IF (N-I) 20,20,10
   10 CONTINUE
   20 DO 30 J=1,12
   30 K=K+A(J)
      WRITE (6,40) I,K
   40 FORMAT (2I3)
      END
