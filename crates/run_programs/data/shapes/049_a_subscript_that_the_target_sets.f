      INTEGER A(4,4),N(8),P(4)
      DATA N/3,5,2,7,8,1,6,4/,P/4,3,2,1/
      DO 10 I=1,4
      DO 10 J=1,4
   10 A(J,I)=MOD(I*J,4)+1
      J=2
      K=1
      DO 20 I=1,4
   20 J=A(J,I)
      DO 30 I=1,12
   30 K=N(K)
      L=2
      DO 40 I=1,4
   40 P(L)=P(L)+A(L,I)
      WRITE (6,9) J,K,L,P
    9 FORMAT (7I6)
      END
