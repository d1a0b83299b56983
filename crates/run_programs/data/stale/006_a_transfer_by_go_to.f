      INTEGER A(20)
      DATA A/4*1,16*0/
      DO 10 I=5,20
      A(I)=A(I-4)
      IF (A(I).EQ.0) GO TO 20
   10 CONTINUE
      K=1
   20 WRITE (6,30) I,K,A(20)
   30 FORMAT (3I3)
      END
