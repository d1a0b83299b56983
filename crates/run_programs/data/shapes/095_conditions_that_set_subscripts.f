      INTEGER A(90),B(90),P(90)
      DO 5 I=1,90
      A(I)=MOD(I*7,11)
    5 P(I)=1+MOD(I*7,90)
      K=3
      DO 10 I=1,40
      IF (A(I).GT.4) K=K+1
   10 B(K)=B(K)+A(I)
      DO 20 I=1,40
      IF (A(I).GT.4) A(I+1)=0
   20 B(I)=B(I)+A(I)
      DO 30 I=1,40
   30 IF (A(P(I)).GT.2) B(I)=B(I)-1
      DO 40 I=1,40
      IF (B(I).LT.0) P(I)=1
   40 IF (A(P(I)).GT.0) B(P(I))=9
      N=40
      DO 50 I=1,N
   50 IF (I.GT.20) N=I
      DO 60 I=1,20
   60 IF (I.EQ.J) J=J+1
      L=1
      DO 70 I=1,30
   70 IF (B(I).GT.B(L)) L=I
      WRITE (6,9) I,J,K,L,N
      WRITE (6,9) A
      WRITE (6,9) B
      WRITE (6,9) P
    9 FORMAT (12I6)
      END
