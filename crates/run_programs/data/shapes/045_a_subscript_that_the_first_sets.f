      INTEGER A(40),B(40)
      DO 5 I=1,40
    5 B(I)=MOD(I*11,37)+1
      DO 10 I=1,20
      K=B(I)
      A(K)=A(K)+I
   10 L=B(K)-A(I)
      WRITE (6,9) K,L,(A(J),J=1,40)
    9 FORMAT (10I6)
      END
