      INTEGER A(16),B(16)
      DATA A/4*1,0,11*1/
      DO 10 I=1,16
      IF (A(I).EQ.0) GO TO 20
   10 B(I)=1
   20 WRITE (6,30) I,B(4),B(5),B(6),B(16)
   30 FORMAT (5I4)
      END
