      INTEGER A(60),B(60),C(60),D(20)
      DO 5 I=1,60
      A(I)=MOD(I*37,61)-30
    5 B(I)=MOD(I*23,61)-30
      M=A(1)
      DO 10 I=2,60
      IF (A(I).LE.M) GO TO 10
      M=A(I)
   10 CONTINUE
      L=1
      DO 20 I=2,60
      IF (A(I).GE.A(L)) GO TO 20
      L=I
   20 CONTINUE
      DO 30 J=59,1,-1
      DO 30 I=1,J
      IF (A(I).LE.A(I+1)) GO TO 30
      K=A(I)
      A(I)=A(I+1)
      A(I+1)=K
   30 CONTINUE
      DO 40 I=1,60
      C(I)=B(I)
      IF (MOD(I,3).EQ.0) GO TO 40
      C(I)=C(I)+100
      IF (B(I).LT.0) C(I)=-C(I)
   40 CONTINUE
      DO 50 I=1,60
      IF (B(I).LT.0) GO TO 50
      IF (B(I).GT.20) GO TO 50
      N=N+1
   50 CONTINUE
      DO 60 I=1,60
      IF (I.EQ.7) GO TO 60
      IF (A(I).EQ.B(I)) C(I)=0
   60 CONTINUE
      DO 70 I=1,60
      IF (A(I)+B(I).LT.C(I)-10) GO TO 70
      B(I)=B(I)-1
   70 CONTINUE
      DO 80 I=1,20
      D(I)=I
      IF (I.GT.10) GO TO 80
      D(21-I)=0
   80 CONTINUE
      WRITE (6,9) I,J,K,L,M,N
      WRITE (6,9) A
      WRITE (6,9) B
      WRITE (6,9) C
      WRITE (6,9) D
    9 FORMAT (12I6)
      END
