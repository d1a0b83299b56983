      INTEGER A(30),B(30),C(30,4),D(30),E(30,4),P(30)
      DO 1 I=1,30
      B(I)=MOD(I*3,5)-1
      D(I)=MOD(I,3)
      P(I)=1+MOD(I*7,25)
      DO 1 J=1,4
    1 C(I,J)=MOD(I*2+J,4)-1
      J=2
      K=3
      DO 10 I=1,16
      A(I)=(B(I)-((3)/3))/3
      A(I)=(I-J+(B(I)-2))/3
      K=(I-J-K*B(I))/3
      A(P(I))=(K+(K*2-2))/2
   10 A(I+1)=(B(P(I)))/3-2
      K=MOD(K,10007)
      DO 50 L=1,30
      A(L)=MOD(A(L),1009)
   50 E(L,2)=MOD(E(L,2),1009)
      WRITE (6,9) K,I,A(1),A(3),A(6),A(14),E(2,2),E(13,2)
      J=2
      K=3
      DO 11 I=1,12
      K=3
      A(I)=K-B(I)
   11 A(I)=I-J-2
      K=MOD(K,10007)
      DO 51 L=1,30
      A(L)=MOD(A(L),1009)
   51 E(L,2)=MOD(E(L,2),1009)
      WRITE (6,9) K,I,A(1),A(3),A(6),A(14),E(2,2),E(13,2)
      J=2
      K=3
      DO 12 I=1,12
      A(I)=B(P(I))-B(I)-K
   12 A(I+1)=C(I,J)
      K=MOD(K,10007)
      DO 52 L=1,30
      A(L)=MOD(A(L),1009)
   52 E(L,2)=MOD(E(L,2),1009)
      WRITE (6,9) K,I,A(1),A(3),A(6),A(14),E(2,2),E(13,2)
      J=2
      K=3
      DO 13 I=1,16
      E(I,J)=MOD((I+K)/2,2)
      A(I)=B(P(I))-(B(I)+B(I))
   13 A(I+1)=B(P(I))
      K=MOD(K,10007)
      DO 53 L=1,30
      A(L)=MOD(A(L),1009)
   53 E(L,2)=MOD(E(L,2),1009)
      WRITE (6,9) K,I,A(1),A(3),A(6),A(14),E(2,2),E(13,2)
      J=2
      K=3
      DO 14 I=1,12
      A(P(I))=(B(I+1))*2-B(I)
      E(I,J)=((C(I,J))/2)/2
   14 A(I+1)=MOD(K*2,2)
      K=MOD(K,10007)
      DO 54 L=1,30
      A(L)=MOD(A(L),1009)
   54 E(L,2)=MOD(E(L,2),1009)
      WRITE (6,9) K,I,A(1),A(3),A(6),A(14),E(2,2),E(13,2)
      J=2
      K=3
      DO 15 I=1,12
      A(I)=B(P(I))
   15 A(I+1)=(I-J+3*C(I,J))/2
      K=MOD(K,10007)
      DO 55 L=1,30
      A(L)=MOD(A(L),1009)
   55 E(L,2)=MOD(E(L,2),1009)
      WRITE (6,9) K,I,A(1),A(3),A(6),A(14),E(2,2),E(13,2)
      J=2
      K=3
      DO 16 I=1,12
      A(I+1)=((C(I,J))*2)/7
   16 E(I,J)=MOD(I-J,2)
      K=MOD(K,10007)
      DO 56 L=1,30
      A(L)=MOD(A(L),1009)
   56 E(L,2)=MOD(E(L,2),1009)
      WRITE (6,9) K,I,A(1),A(3),A(6),A(14),E(2,2),E(13,2)
      J=2
      K=3
      DO 17 I=1,16
      A(I+1)=(I-J-C(I,J)*(I-J))/2
      A(P(I))=MOD(K,5)+C(I+1,J)
      A(I+1)=MOD(C(I,J),5)-2
   17 E(I,J)=(3-C(I+1,J))/7
      K=MOD(K,10007)
      DO 57 L=1,30
      A(L)=MOD(A(L),1009)
   57 E(L,2)=MOD(E(L,2),1009)
      WRITE (6,9) K,I,A(1),A(3),A(6),A(14),E(2,2),E(13,2)
      J=2
      K=3
      DO 18 I=1,12
      K=(K*2+(K-K))/2
      A(I+1)=K*2+(MOD(I+K,97))
   18 E(I,J)=(D(P(I+1)))/2
      K=MOD(K,10007)
      DO 58 L=1,30
      A(L)=MOD(A(L),1009)
   58 E(L,2)=MOD(E(L,2),1009)
      WRITE (6,9) K,I,A(1),A(3),A(6),A(14),E(2,2),E(13,2)
      J=2
      K=3
      DO 19 I=1,16
      A(I+1)=3-B(I)
      A(P(I))=I+K
      A(I+1)=B(I+1)-(I+K+C(I,J))
      A(P(I))=(B(I)-B(I+1)*(I-J))/2
   19 A(I)=I-J+((K*2)*B(I))
      K=MOD(K,10007)
      DO 59 L=1,30
      A(L)=MOD(A(L),1009)
   59 E(L,2)=MOD(E(L,2),1009)
      WRITE (6,9) K,I,A(1),A(3),A(6),A(14),E(2,2),E(13,2)
    9 FORMAT (8I8)
      END
