      INTEGER A(60),B(60)
      DO 10 I=1,60
      A(I)=MOD(I*37,61)
   10 B(I)=MOD(I,9)
      DO 20 I=1,60
      IF (A(I).EQ.50) GO TO 30
   20 CONTINUE
   30 K=I
      DO 40 I=1,60
      IF (B(I).GT.100) GO TO 50
   40 B(I)=B(I)+A(I)
   50 L=I
      DO 60 I=1,60
      IF (A(I)+B(I).GT.100) GO TO 70
      B(I)=0
      IF (A(I).LT.5) B(I)=-1
   60 CONTINUE
   70 M=I
      N=0
      DO 80 J=2,60
      IF (J*J.GT.59) GO TO 90
      IF (MOD(59,J).EQ.0) N=N+1
   80 CONTINUE
   90 CONTINUE
      DO 100 I=1,60
      IF (A(I).EQ.0) STOP
  100 CONTINUE
      DO 110 I=10,60
      IF (A(I).EQ.17) GO TO (120,130),B(I)+1
      N=N+A(I)
  110 CONTINUE
  120 N=N+1000
  130 WRITE (6,9) I,J,K,L,M,N
      WRITE (6,9) A
      WRITE (6,9) B
    9 FORMAT (12I6)
      END
