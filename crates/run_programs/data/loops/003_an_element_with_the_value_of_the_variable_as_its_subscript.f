      INTEGER A(4)
      DO 10 I=1,4
      DO 10 J=1,I
   10 A(I)=A(I)+J
      WRITE (6,20) A,I,J
   20 FORMAT (6I4)
      END
