      INTEGER A(0:3),B(-1:2,3)
      LOGICAL L(2)
      DO 5 I=0,3
      A(I)=10*I
      DO 5 J=1,3
    5 B(I-1,J)=100*I+J
      I=2
      J=3
      K=-1
      L(1)=.TRUE.
      M=1
      N=A(I)+A(J)*B(K,J)-B(I,M)
      A(M)=B(I,J)
      B(K,M)=A(M)+N
      WRITE (6,10) N,A,B,A(A(M)/150),-A(I),+B(K,M)
   10 FORMAT (6I6)
      END
