      INTEGER A(60),P(60)
      DO 10 I=1,60
      P(I)=61-I
   10 CONTINUE
      DO 20 I=1,60
      K=P(I)
      A(K)=I
   20 CONTINUE
      DO 30 I=1,50
      A(I)=A(I)+P(I)
      K=K+1
   30 CONTINUE
      DO 40 I=1,40
      L=I
   40 A(L+3)=L
      WRITE (6,9) K,L,A(1),A(2),A(30),A(59),A(60)
    9 FORMAT (7I8)
      END
