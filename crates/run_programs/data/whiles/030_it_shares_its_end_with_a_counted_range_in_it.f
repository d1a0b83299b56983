      INTEGER A(5)
      DO 10 WHILE (A(5).LT.30)
      K=K+1
      DO 10 I=1,5
   10 A(I)=A(I)+I*K
      WRITE (6,20) K,I,A
   20 FORMAT (7I4)
      END
