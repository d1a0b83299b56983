      INTEGER A(60),B(60),C(3,60),T(60)
      DO 5 I=1,60
      A(I)=MOD(I*37,61)-30
    5 B(I)=MOD(I*23,61)-30
      M=A(1)
      N=A(1)
      DO 10 I=2,60
   10 IF (A(I).GT.M) M=A(I)
      DO 20 I=2,60
      IF (A(I).LT.N) N=A(I)
   20 CONTINUE
      DO I=1,60
      IF (MOD(A(I),3).EQ.0) K=K+1
      END DO
      DO 30 I=1,60
   30 IF (A(I).GE.B(I)) T(I)=1
      DO 40 I=1,60
   40 IF (I.LE.20) T(I)=T(I)+2
      L=33
      DO 50 I=1,60
   50 IF (I.NE.L) T(I)=T(I)+4
      DO 60 I=1,60
   60 IF (L.EQ.I) C(2,I)=L
      DO 70 I=1,60
   70 IF (A(I)+B(I).GT.L) C(1,I)=A(I)-B(I)
      DO 80 I=2,60
   80 IF (A(I)*2.LE.B(I-1)-B(I)) C(3,I)=A(I-1)
      DO 90 I=1,60
   90 IF (A(I)-5.LT.0) A(I)=7
      DO 100 I=2,60
  100 IF (B(I).LT.B(I-1)) B(I)=B(I-1)
      J=0
      DO 110 I=1,60
  110 IF (B(I).GE.20) J=J+I
      DO 120 I=60,1,-1
  120 IF (A(I).NE.7) L=I
      WRITE (6,9) I,J,K,L,M,N
      WRITE (6,9) A
      WRITE (6,9) B
      WRITE (6,9) T
      WRITE (6,9) C
    9 FORMAT (12I6)
      END
