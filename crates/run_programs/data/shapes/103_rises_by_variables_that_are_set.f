      INTEGER A(20)
      N=3
      M=2
      DO 10 I=1,9
   10 N=N+(M-N)*I-N
      DO 20 I=1,9
   20 M=(M-1)*I-M
      J=4
      DO 30 I=1,20
   30 J=J+(I-J)*2-I
      DO 40 I=1,20
   40 A(I)=(J+I)*I-J
      DO 50 I=1,20
   50 A(I)=A(I)+(I-M)*2
      DO 60 I=1,20
   60 K=K+(K-M)*1-K
      L=1
      DO 70 I=1,20
   70 L=(L+I)*2-L
      WRITE (6,9) I,J,K,L,M,N
      WRITE (6,9) A
    9 FORMAT (6I12)
      END
