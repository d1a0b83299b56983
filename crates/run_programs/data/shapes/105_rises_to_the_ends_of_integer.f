      INTEGER A(22),B(43)
      N=100000000
      M=47483647
      DO 10 I=1,22
   10 A(I)=N*(I-1)+M
      DO 20 I=0,-21,-1
   20 B(22+I)=N*I-M-1
      K=0
      DO 30 I=1,21
   30 K=K-K+(N*I+M)
      L=-1
      DO 40 I=-10,10
   40 L=L-L+(N*(I-1)-M)
      WRITE (6,9) I,K,L
      L=0
      DO 50 I=1,21
   50 K=L+(N*I+M)
      WRITE (6,9) I,K,L
      WRITE (6,9) A
      WRITE (6,9) B
    9 FORMAT (4I13)
      END
