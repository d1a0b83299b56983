      INTEGER A(30),B(30),T
      LOGICAL L
      DO 10 I=1,30
      A(I)=MOD(I*17,31)
   10 B(I)=MOD(I*11,7)
      DO 20 I=1,29
      IF (A(I).GT.A(I+1)) THEN
      T=A(I)
      A(I)=A(I+1)
      A(I+1)=T
      END IF
   20 CONTINUE
      K=0
      M=0
      DO 40 I=1,30
      IF (B(I).EQ.0) THEN
      K=K+1
      ELSE IF (B(I).EQ.1) THEN
      M=M+1
      B(I)=M
      ELSE IF (B(I).EQ.2) THEN
      ELSE IF (B(I).EQ.3) THEN
      DO 30 J=1,3
   30 A(I)=A(I)+J
      ELSE IF (B(I).EQ.4) THEN
      GO TO 40
      ELSE IF (B(I).GT.5) THEN
      A(I)=-A(I)
      ELSE
      IF (A(I).GT.15) THEN
      K=K+10
      M=M-1
      END IF
      A(I)=A(I)-1
      END IF
      A(I)=A(I)+100
   40 CONTINUE
      L=.FALSE.
      DO 50 I=1,30
      IF (L) THEN
      L=.FALSE.
      N=N+1
      ELSE
      L=A(I).GT.110
      END IF
   50 CONTINUE
      WRITE (6,9) I,K,M,N,T
      WRITE (6,9) A
      WRITE (6,9) B
    9 FORMAT (10I6)
      END
