      INTEGER A(12)
   10 N=N+1
      DO 20 I=N,12
      A(I)=A(I)+N
      IF (I.EQ.5) GO TO 10
   20 CONTINUE
      WRITE (6,30) I,N,A
   30 FORMAT (14I3)
      END
