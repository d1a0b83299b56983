      INTEGER A(40),B(40),C(3,40),P(40)
      DO 10 I=1,40
      A(I)=I*3-20
   10 CONTINUE
      DO I=1,40
      P(I)=41-I
      END DO
      DO 20 I=2,40
      B(I)=A(P(I))+B(I-1)
   20 CONTINUE
      DO I=1,40
      C(2,I)=A(I)-B(I)*2+I
      END DO
      K=0
      DO 30 I=40,1,-1
      K=K+C(2,I)
   30 CONTINUE
      M=1
      DO I=1,40
      M=MOD(M*17+5,1009)
      END DO
      DO 40 J=1,3
      DO 40 I=1,40,3
      C(J,I)=C(J,I)+I*J
   40 CONTINUE
      DO 50 I=1,40
      L=L+A(I)*B(I)
   50 CONTINUE
      WRITE (6,9) K,M,L,I,A(1),B(40),C(1,1),C(3,40),C(2,13)
    9 FORMAT (9I9)
      END
