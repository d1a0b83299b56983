      INTEGER A(60),B(60),C(3,60)
      J=2
      DO 10 I=1,60
      A(I)=I
      B(I)=61-I
      C(J,I)=I*J
   10 CONTINUE
      K=1
      L=1
      DO I=1,40
      M=K+L
      K=L
      L=M
      M=7
      IF (L.GT.1000) L=1
      END DO
      K=1
      L=1
      DO I=1,40
      M=K-L
      K=L
      L=M
      END DO
      DO 20 I=1,59
      K=A(I)
      A(I)=B(I+1)
      B(I+1)=K
   20 CONTINUE
      DO 30 I=2,60
      A(I)=A(I)-B(I)
      B(I)=C(J,I-1)
      C(J,I)=B(I)+A(I)
      N=C(J,I)
   30 CONTINUE
      DO 40 I=1,60
      C(1,I)=A(I)+B(I)
      C(2,I)=A(I)-B(I)
      C(3,I)=A(I)*J
   40 CONTINUE
      DO 50 I=1,58
      L=I+1
      A(L)=I
      M=L+1
      B(M)=A(L)
   50 CONTINUE
      WRITE (6,9) I,J,K,L,M,N,A(1),A(59),A(60),B(1),B(59),B(60)
      WRITE (6,9) (A(I),I=1,12)
      WRITE (6,9) (B(I),I=1,12)
      WRITE (6,9) (C(1,I),C(2,I),C(3,I),I=1,60)
    9 FORMAT (12I10)
      END
