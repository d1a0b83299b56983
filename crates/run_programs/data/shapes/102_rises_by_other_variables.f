      INTEGER A(40),B(40)
      N=7
      M=-3
      DO 10 I=1,40
   10 A(I)=N*(I-1)+M
      DO 20 I=1,40
   20 B(I)=(I-N)*M+2*I-N
      K=0
      DO 30 I=1,40
   30 K=K+(N-M)*I-K
      L=5
      DO 40 I=1,40
   40 L=L+(I+N)*M+M
      DO 50 I=40,1,-3
   50 A(I)=A(I)+(N-M)*I-2
      DO 60 I=1,40
   60 B(I)=B(I)-(I*N+M)
      DO 70 I=3,38
   70 A(I)=B(I)+(I-M)*N-K
      WRITE (6,9) I,J,K,L,M,N
      WRITE (6,9) A
      WRITE (6,9) B
    9 FORMAT (10I7)
      END
