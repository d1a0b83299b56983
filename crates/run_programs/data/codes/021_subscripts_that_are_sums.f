      INTEGER A(0:9),B(-1:2,3)
      LOGICAL L(4)
      PARAMETER (K1=1,K2=-2)
      DATA A/10*7/,L/4*.FALSE./
      I=3
      J=2
      DO 5 K=1,9
    5 A(K-1)=A(K)+10*K
      A(I+1)=A(I-1)*100
      A(I+K1)=A(I+K1)+A(I-K2)
      A(J-K2)=A(J+K2)-A(J-2)
      DO 6 K=1,3
      B(K-2,K)=K
    6 B(J,K-0)=B(K-2,K)+A(K+6)
      L(J+2)=L(J-1).OR.I.EQ.3
      L(J)=L(J+2)
      WRITE (6,10) A,B,L,A((I+1)),A(I+1-1),A(1+I)
   10 FORMAT (10I7/12I6/4L2/3I7)
      END
