      INTEGER A(7)
      DO 20 I=1,7
      N=I
      DO 10 J=1,N
      N=0
   10 A(I)=A(I)+J
   20 CONTINUE
      WRITE (6,30) I,J,N,A
   30 FORMAT (10I3)
      END
