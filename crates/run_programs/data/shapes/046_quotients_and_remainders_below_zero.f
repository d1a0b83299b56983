      INTEGER A(14),B(14),C(14)
      K=-2147483647-1
      DO 5 I=1,14
      A(I)=K/I
    5 K=K+300000000
      DO 10 I=1,14
      B(I)=(A(I)+3)/7
   10 C(I)=MOD(A(I)+1,1000)
      DO 20 I=1,14
   20 A(I)=MOD(B(I),13)/2
      WRITE (6,9) (A(I),B(I),C(I),I=1,14)
    9 FORMAT (3I12)
      END
