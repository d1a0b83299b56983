      INTEGER A(12)
      DATA A(1)/-1/
      DO 10 I=2,12
      A(I)=A(I-1)
      IF (A(I)) 10,20,20
   10 CONTINUE
      K=1
   20 WRITE (6,30) I,K,A(12)
   30 FORMAT (3I3)
      END
