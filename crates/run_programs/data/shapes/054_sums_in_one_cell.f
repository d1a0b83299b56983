      INTEGER A(20),D(3,3),E(3,20),F(20,3),B(-4:5)
      DO 5 I=1,20
      A(I)=3*I-20
      DO 5 J=1,3
      E(J,I)=I-J*2
    5 F(I,J)=J-I+4
      ISUM=0
      DO 10 I=1,20
   10 ISUM=ISUM+A(I)
      DO 20 I=1,20
   20 A(3)=A(3)+A(I)
      DO 30 J=1,3
      DO 30 K=1,3
      D(J,K)=0
      DO 30 L=1,20
   30 D(J,K)=D(J,K)+E(J,L)*F(L,K)
      WRITE (6,9) A,D,ISUM
      J=5
      DO 40 I=20,1,-1
   40 A(J)=A(I)-A(J)
      DO 50 I=1,20
   50 LAST=A(I)
      DO 60 I=2,19
   60 A(20)=A(I)
      K=1
      DO 70 I=1,12
   70 K=K*2
      DO 80 I=1,20
   80 A(I)=A(I)+A(7)
      DO 90 I=-4,5
   90 B(-4)=B(-4)*3+I
      DO 95 I=1,20,2
   95 F(I,2)=A(2)+F(2,1)*2
      DO 97 I=1,10
   97 J=A(I)+J
      WRITE (6,9) A,B,F,LAST,K,J,I
    9 FORMAT (10I8)
      END
