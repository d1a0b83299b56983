      INTEGER A(60),B(60),S
      DO 10 I=1,60
      A(I)=I*I+7
   10 B(I)=MOD(I*5,17)-4
      N=720720
      K=0
      DO 20 I=1,60
   20 IF (MOD(N,I).EQ.0) K=K+I
      L=0
      DO 30 I=1,60
      IF (MOD(A(I),I).NE.3) GO TO 30
      L=L+A(I)
   30 CONTINUE
      M=0
      J=9
      DO 40 I=1,60
      IF (MOD(A(I),J).LT.4) M=M+1
      IF (MOD(I,J).EQ.0) A(I)=0
   40 CONTINUE
      S=0
      DO 50 I=1,60
      IF (B(I).EQ.0) GO TO 50
      IF (MOD(N,B(I)).EQ.0) S=S+B(I)
   50 CONTINUE
      DO 60 I=-40,-1
   60 IF (MOD(I,N).EQ.-7) J=J+I
      WRITE (6,9) I,J,K,L,M,S
      WRITE (6,9) A
    9 FORMAT (6I10)
      END
