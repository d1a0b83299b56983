      INTEGER A(60),B(60),C(3,60)
      J=2
      DO 10 I=1,60
      A(I)=I
      B(I)=61-I
   10 CONTINUE
      K=0
      DO 20 I=1,60
      K=K+A(I)
   20 B(I)=K
      DO I=2,60
      A(I)=A(I-1)-B(I)
      C(J,I)=A(I)-7
      END DO
      DO 30 I=1,59
      K=B(I)
      B(I+1)=K-A(I)
   30 CONTINUE
      L=1
      DO 40 I=1,60
      A(L)=L-I
      L=L+1
   40 CONTINUE
      M=3
      DO 50 I=1,60
      C(J,I)=C(J,I)*M
   50 M=J-M
      DO 60 I=60,1,-1
      N=I*2
      C(1,I)=N+J
   60 CONTINUE
      DO 70 I=1,59
      A(I+1)=A(I)
      C(3,I)=5
   70 CONTINUE
      DO 80 I=1,60,7
      C(J,I)=M
      J=5-J
   80 CONTINUE
      WRITE (6,9) I,J,K,L,M,N,A(1),A(60),B(1),B(60),C(2,2),C(2,60)
      WRITE (6,9) (A(I),I=1,12)
      WRITE (6,9) (B(I),I=1,12)
      WRITE (6,9) (C(1,I),C(2,I),C(3,I),I=1,24)
    9 FORMAT (12I10)
      END
