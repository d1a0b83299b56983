      IMPLICIT INTEGER (A-Z)
      INTEGER A(-1:2,3,0:4),B(0:2,2,-1:1,2,2:4,2,3),C(4),D(4),E(4)
      INTEGER P(3,-2:0,2,3),Q(3,2,0:1,2,3),R(2,3,2,-1:2,2,3)
      LOGICAL T(0:2,2,2:4),U(3)
      J=2
      K=1
      L=3
      M=2
      C(4)=0
      D(4)=0
      E(4)=0
      DO 10 I=1,3
      A(I-2,J,K)=I*10+1
      A(I-1,J+1,K+3)=A(I-2,J,K)*2
      B(I-1,J,K-2,M,L+1,K,I)=I*100+7
      B(I-1,J-1,K,M-1,L-1,K+1,I)=B(I-1,J,K-2,M,L+1,K,I)-A(I-1,J+1,K+3)
      C(I)=A(I-2,J,K)+A(I-1,J+1,K+3)
      D(I)=B(I-1,J-1,K,M-1,L-1,K+1,I)
      P(I,I-3,J,L)=D(I)+1
      Q(I,J,K,M,I)=P(I,I-3,J,L)*2+C(I)
      R(J,I,K+1,I-2,M,I)=Q(I,J,K,M,I)-P(I,I-3,J,L)
      E(I)=R(J,I,K+1,I-2,M,I)*P(I,I-3,J,L)-Q(I,J,K,M,I)
      T(I-1,J,I+1)=E(I).GT.A(I-2,J,K)*1200
      U(I)=.NOT.T(I-1,J,I+1)
      C(4)=C(4)+A(I-2,2,2*K-1)+B(I-1,2,K-2,M,2*J,K,I)
      D(4)=D(4)+A(-1,J,K)+B(0,J,-1,M,L+1,1,K)
      IF (A(I-2,J,K).GT.P(I,I-3,J,L)-160) GO TO 10
      E(4)=E(4)+A(I-2,J,K)
   10 CONTINUE
      WRITE (6,20) C,D,E
      WRITE (6,30) U
   20 FORMAT (4I10)
   30 FORMAT (3L3)
      END
