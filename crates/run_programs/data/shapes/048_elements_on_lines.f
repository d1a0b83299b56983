      INTEGER A(-3:6,5),B(12),C(0:3)
      DO 5 I=1,12
    5 B(I)=I*I-20
      DO 10 I=5,1,-1
   10 A(I-3,I)=B(2+I)-I
      DO 20 I=6,-3,-3
   20 A(I,2)=A(I,2)+B(3)
      J=3
      K=-2
      DO 30 I=1,5
   30 A(K,I)=A(K,I)+B(J)*I
      DO 40 I=1,9,2
   40 B(I+3)=B(I)*3-B(I+1)
      DO 50 I=3,0,-1
   50 C(I)=A(I-3,I+1)-A(I,J)
      WRITE (6,9) A,B,C,I,J,K
    9 FORMAT (10I7)
      END
