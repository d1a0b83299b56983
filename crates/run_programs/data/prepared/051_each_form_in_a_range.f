      IMPLICIT INTEGER (A-Z)
      INTEGER A(9),B(9,9),C(3,3,9),D(9)
      LOGICAL L(9),M
      F(X)=MOD(X,3)
      J=2
      N=7
      DO 20 I=1,4
      K1=N+3
      K2=N-3
      K3=N*3
      K4=N/3
      K5=I*2+N-J*N/J
      K6=(I+1)*(N-I)/(J+I)
      K7=MOD(I*9,N-I)+MOD(I*9,5)
      A(I)=I*I-4*I
      A(I+1)=A(I)+J
      D(2*I)=A(I+1)-A(I)
      B(I,J)=A(I)+I
      B(J,I)=B(I,J)+A(I+1)*B(J+1,I+1)
      C(J,1,I)=B(I,J)-C(J,1,I)
      K8=K8+A(I)+B(J,I)-C(J,1,I)*A(I)
      K9=K9-A(I)*B(I,J)+C(J,1,I)
      L(I)=A(I).LT.0
      M=L(I).OR.A(I).EQ.0.AND.I.GT.2
      IF (M) N=N+1
      IF (L(I)) A(I)=A(I)+100
      IF (M.AND..NOT.L(I)) L(I+1)=.TRUE.
      IF (A(I).GE.98) GO TO 10
      N=N+F(I)*D(2*I)
   10 K10=K10+N
   20 CONTINUE
      WRITE (6,30) K1,K2,K3,K4,K5,K6,K7,K8,K9,K10,N,I
      WRITE (6,30) A,D,B,C
      WRITE (6,40) L,M
   30 FORMAT (12I6)
   40 FORMAT (10L3)
      END
