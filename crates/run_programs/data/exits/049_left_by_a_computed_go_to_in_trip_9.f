      INTEGER A(12)
      DATA N/9/
      DO 10 I=1,12
      A(I)=1
      GO TO (20),I-N+1
   10 CONTINUE
   20 DO 30 J=1,12
   30 K=K+A(J)
      WRITE (6,40) I,K
   40 FORMAT (2I3)
      END
