      INTEGER A(60),B(60),C(60),D(9,9)
      DO 5 I=1,60
      A(I)=MOD(I*37,61)
    5 B(I)=MOD(I*23,61)
      M=0
      N=99
      DO 10 I=1,60
      IF (A(I).GT.M) M=A(I)
   10 IF (A(I).LT.N) N=A(I)
      DO 20 I=1,60
      K=A(I)+B(I)
   20 IF (K.GT.60) K=60
      DO 30 I=1,60
      IF (A(I).EQ.B(I)) C(I)=1
      C(I)=C(I)+2
   30 CONTINUE
      DO 40 I=1,60
      IF (A(I).LT.30) A(I)=30
      IF (A(I).GT.50) A(I)=50
      B(I)=B(I)-A(I)
   40 CONTINUE
      DO I=1,60
      L=B(I)
      IF (L.LT.0) L=0
      IF (MOD(I,2).NE.0) L=L+100
      C(I)=C(I)+L
      END DO
      DO 50 J=1,9
      DO 50 I=1,9
   50 D(I,J)=MOD(I*J*7,10)
      DO 60 K=1,9
      DO 60 I=1,9
      DO 60 J=1,9
      L=D(I,K)+D(K,J)
   60 IF (L.LT.D(I,J)) D(I,J)=L
      J=1
      DO 70 I=1,20
      IF (A(J).GT.30) J=J+1
   70 A(J)=A(J)+I
      WRITE (6,9) I,J,K,L,M,N
      WRITE (6,9) A
      WRITE (6,9) B
      WRITE (6,9) C
      WRITE (6,9) D
    9 FORMAT (12I6)
      END
