      INTEGER A(30),B(30),T
      DO 10 I=1,30
      A(I)=MOD(I*17,31)
   10 B(I)=MOD(I*11,23)
      DO 30 I=1,29
      K=I
      DO 20 J=I+1,30
      IF (A(J).LT.A(K)) K=J
   20 CONTINUE
      T=A(K)
      A(K)=A(I)
   30 A(I)=T
      L=1
      DO 40 I=1,30
   40 IF (B(L).LT.B(I)) L=I
      M=30
      DO 50 I=1,29
      IF (B(M).GE.B(I+1)) M=M-1
      IF (B(I).EQ.B(M-1)) N=N+I
   50 CONTINUE
      J=2
      DO 60 I=2,30
      IF (A(I).LE.A(J)) GO TO 60
      J=J+1
   60 CONTINUE
      WRITE (6,9) I,J,K,L,M,N
      WRITE (6,9) A
      WRITE (6,9) B
    9 FORMAT (6I6)
      END
