      INTEGER A(30),B(30),C(30,4),D(30),E(30,4),P(30)
      DO 1 I=1,30
      B(I)=MOD(I*3,5)-1
      D(I)=MOD(I,3)
      P(I)=1+MOD(I*7,25)
      DO 1 J=1,4
    1 C(I,J)=MOD(I*2+J,4)-1
      J=2
      K=3
      DO 10 I=1,5
   10 A(I+1)=((3)/7)/7
      K=MOD(K,10007)
      DO 50 L=1,30
      A(L)=MOD(A(L),1009)
   50 E(L,2)=MOD(E(L,2),1009)
      WRITE (6,9) K,I,A(1),A(3),A(6),A(14),E(2,2),E(13,2)
      J=2
      K=3
      DO 11 I=1,5
   11 A(I)=K*2
      K=MOD(K,10007)
      DO 51 L=1,30
      A(L)=MOD(A(L),1009)
   51 E(L,2)=MOD(E(L,2),1009)
      WRITE (6,9) K,I,A(1),A(3),A(6),A(14),E(2,2),E(13,2)
      J=2
      K=3
      DO 12 I=1,7
   12 A(I)=3+(B(I+1)+C(I,J))
      K=MOD(K,10007)
      DO 52 L=1,30
      A(L)=MOD(A(L),1009)
   52 E(L,2)=MOD(E(L,2),1009)
      WRITE (6,9) K,I,A(1),A(3),A(6),A(14),E(2,2),E(13,2)
      J=2
      K=3
      DO 13 I=1,7
   13 A(I+1)=B(I)
      K=MOD(K,10007)
      DO 53 L=1,30
      A(L)=MOD(A(L),1009)
   53 E(L,2)=MOD(E(L,2),1009)
      WRITE (6,9) K,I,A(1),A(3),A(6),A(14),E(2,2),E(13,2)
      J=2
      K=3
      DO 14 I=1,5
   14 A(I+1)=(MOD(I+K,97))/7
      K=MOD(K,10007)
      DO 54 L=1,30
      A(L)=MOD(A(L),1009)
   54 E(L,2)=MOD(E(L,2),1009)
      WRITE (6,9) K,I,A(1),A(3),A(6),A(14),E(2,2),E(13,2)
      J=2
      K=3
      DO 15 I=1,7
   15 A(I)=MOD((K)*K,97)
      K=MOD(K,10007)
      DO 55 L=1,30
      A(L)=MOD(A(L),1009)
   55 E(L,2)=MOD(E(L,2),1009)
      WRITE (6,9) K,I,A(1),A(3),A(6),A(14),E(2,2),E(13,2)
      J=2
      K=3
      DO 16 I=1,5
   16 K=B(P(I))-B(I)*C(I,J)
      K=MOD(K,10007)
      DO 56 L=1,30
      A(L)=MOD(A(L),1009)
   56 E(L,2)=MOD(E(L,2),1009)
      WRITE (6,9) K,I,A(1),A(3),A(6),A(14),E(2,2),E(13,2)
      J=2
      K=3
      DO 17 I=1,7
   17 A(P(I))=(B(P(I)))*D(I+1)
      K=MOD(K,10007)
      DO 57 L=1,30
      A(L)=MOD(A(L),1009)
   57 E(L,2)=MOD(E(L,2),1009)
      WRITE (6,9) K,I,A(1),A(3),A(6),A(14),E(2,2),E(13,2)
      J=2
      K=3
      DO 18 I=1,5
   18 A(I)=MOD(B(I)+D(I+1),97)
      K=MOD(K,10007)
      DO 58 L=1,30
      A(L)=MOD(A(L),1009)
   58 E(L,2)=MOD(E(L,2),1009)
      WRITE (6,9) K,I,A(1),A(3),A(6),A(14),E(2,2),E(13,2)
      J=2
      K=3
      DO 19 I=1,7
   19 E(I,J)=I+K-((I+K)/2)
      K=MOD(K,10007)
      DO 59 L=1,30
      A(L)=MOD(A(L),1009)
   59 E(L,2)=MOD(E(L,2),1009)
      WRITE (6,9) K,I,A(1),A(3),A(6),A(14),E(2,2),E(13,2)
      J=2
      K=3
      DO 20 I=1,7
   20 A(I)=C(I,J)
      K=MOD(K,10007)
      DO 60 L=1,30
      A(L)=MOD(A(L),1009)
   60 E(L,2)=MOD(E(L,2),1009)
      WRITE (6,9) K,I,A(1),A(3),A(6),A(14),E(2,2),E(13,2)
      J=2
      K=3
      DO 21 I=1,7
   21 K=(I-J+(B(P(I))-2))/2
      K=MOD(K,10007)
      DO 61 L=1,30
      A(L)=MOD(A(L),1009)
   61 E(L,2)=MOD(E(L,2),1009)
      WRITE (6,9) K,I,A(1),A(3),A(6),A(14),E(2,2),E(13,2)
      J=2
      K=3
      DO 22 I=1,5
   22 A(I+1)=MOD((B(P(I)))/3,5)
      K=MOD(K,10007)
      DO 62 L=1,30
      A(L)=MOD(A(L),1009)
   62 E(L,2)=MOD(E(L,2),1009)
      WRITE (6,9) K,I,A(1),A(3),A(6),A(14),E(2,2),E(13,2)
      J=2
      K=3
      DO 23 I=1,5
   23 A(P(I))=(K*2)*D(I+1)
      K=MOD(K,10007)
      DO 63 L=1,30
      A(L)=MOD(A(L),1009)
   63 E(L,2)=MOD(E(L,2),1009)
      WRITE (6,9) K,I,A(1),A(3),A(6),A(14),E(2,2),E(13,2)
      J=2
      K=3
      DO 24 I=1,5
   24 A(I)=B(I+1)+D(I+1)
      K=MOD(K,10007)
      DO 64 L=1,30
      A(L)=MOD(A(L),1009)
   64 E(L,2)=MOD(E(L,2),1009)
      WRITE (6,9) K,I,A(1),A(3),A(6),A(14),E(2,2),E(13,2)
      J=2
      K=3
      DO 25 I=1,7
   25 E(I,J)=K*2
      K=MOD(K,10007)
      DO 65 L=1,30
      A(L)=MOD(A(L),1009)
   65 E(L,2)=MOD(E(L,2),1009)
      WRITE (6,9) K,I,A(1),A(3),A(6),A(14),E(2,2),E(13,2)
      J=2
      K=3
      DO 26 I=1,7
   26 A(I+1)=D(P(I+1))+((B(P(I)))*C(I,J))
      K=MOD(K,10007)
      DO 66 L=1,30
      A(L)=MOD(A(L),1009)
   66 E(L,2)=MOD(E(L,2),1009)
      WRITE (6,9) K,I,A(1),A(3),A(6),A(14),E(2,2),E(13,2)
      J=2
      K=3
      DO 27 I=1,7
   27 K=(B(P(I))+K)/2
      K=MOD(K,10007)
      DO 67 L=1,30
      A(L)=MOD(A(L),1009)
   67 E(L,2)=MOD(E(L,2),1009)
      WRITE (6,9) K,I,A(1),A(3),A(6),A(14),E(2,2),E(13,2)
    9 FORMAT (8I8)
      END
