      INTEGER A(8)
      K=1
      DO 10 WHILE (K.LT.100)
      DO 20 I=1,8
   20 A(I)=A(I)+I*K
      WRITE (6,30) K,A
   10 K=K*3
   30 FORMAT (9I5)
      END
