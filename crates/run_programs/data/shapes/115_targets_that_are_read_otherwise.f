      INTEGER A(30)
      N=20
      M=3
      DO 10 I=1,N
   10 N=N+(M-1)*I
      L=10
      DO 20 I=1,L
   20 L=(M+1)*I-M
      DO 30 I=1,30
   30 A(I)=I
      K=4
      DO 40 I=1,20
      IF (MOD(A(K),I).EQ.1) K=K+1
   40 CONTINUE
      DO 50 I=2,29
   50 A(I)=A(I-1)+(I-M)*M
      DO 60 I=1,20
      IF (A(I).GT.300) GO TO 70
      A(I+1)=A(I)+M
   60 CONTINUE
   70 J=I
      DO 80 I=1,20
      IF (A(M).GT.60) GO TO 90
      M=M+1
   80 CONTINUE
   90 WRITE (6,9) I,J,K,L,M,N
      WRITE (6,9) A
    9 FORMAT (6I7)
      END
