      INTEGER A(12)
      DO 10 I=1,12
      A(I)=I
      IF (5-I) 30,20,10
   10 CONTINUE
   20 K=1
      GO TO 40
   30 K=2
   40 WRITE (6,50) I,K,A(5),A(6)
   50 FORMAT (4I3)
      END
