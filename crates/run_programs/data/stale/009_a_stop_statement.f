      INTEGER A(12)
      DATA A(1)/1/
      DO 10 I=2,12
      A(I)=A(I-1)
   10 IF (A(I).EQ.0) STOP 'NEVER'
      WRITE (6,20) I,A(12)
   20 FORMAT (2I3)
      END
