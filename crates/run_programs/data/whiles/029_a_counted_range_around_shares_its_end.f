      INTEGER A(5)
      DO 10 I=1,5
      N=I
      DO 10 WHILE (N.GT.0)
      N=N-1
   10 A(I)=A(I)+N+1
      WRITE (6,20) I,N,A
   20 FORMAT (7I4)
      END
