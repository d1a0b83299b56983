      INTEGER A(40),B(40),C(40,6),D(40,6),P(40)
      DO 5 I=1,40
      A(I)=MOD(I*7,11)-5
      B(I)=3*I-40
    5 P(I)=1+MOD(I*7,40)
      DO 10 I=1,40
      DO 10 J=1,6
   10 C(I,J)=MOD(I*5+J*3,17)
      DO 20 J=2,5
      DO 20 I=2,39
   20 D(I,J)=(C(I-1,J)+C(I+1,J)+C(I,J-1)+C(I,J+1)-4*C(I,J))/4
      DO 30 I=3,40
   30 A(I)=MOD(A(I-1)*5+A(I-2)+J,97)
      L=3
      DO 40 I=1,40
   40 K=K+(I-J)*L-K+A(I)*B(I)
      DO 50 I=1,36
   50 B(I)=A(I)+B(41-I)+A(P(I))-B(I)*2+I/7
      DO 55 I=1,40
   55 B(I)=A(I)-B(I)*2+A(P(I))-B(P(I))+I/7-J
      WRITE (6,9) A,B,K
      DO 60 I=40,2,-1
   60 A(I)=A(I-1)*2-A(I)*3+P(I)-A(I-1)+I-7*L
      DO 70 I=1,33
   70 B(I)=L*2+I*3-L-I-B(I+7)+A(I)
      DO 80 I=1,40
   80 M=MOD(A(I)*3+B(I)-1+I,1000)
      N=36
      DO 90 I=1,N
   90 N=N*2-I+N/3-N-1-N/4
      DO 95 J=1,6
      DO 95 I=1,40
   95 D(I,3)=D(I,3)*2-I+D(I,4)-D(I,3)+C(I,J)/2*3
      DO 97 I=1,39
   97 L=A(I)*B(I)-A(I+1)*B(I+1)+L/2
      DO 98 I=4,40
   98 P(I)=A(I)+A(I-1)+A(I-2)+A(I-3)+B(I)+B(I-1)+B(I-2)-I+8
      DO 99 I=1,40
   99 K=K-A(I)+4-7+9-B(I)+100-99+2*P(I)
      WRITE (6,9) A,B,D,P,K,L,M,N,I,J
    9 FORMAT (10I8)
      END
