      INTEGER A(30),B(30),C(30,4),D(30),E(30,4),P(30)
      DO 1 I=1,30
      B(I)=MOD(I*3,5)-1
      D(I)=MOD(I,3)
      P(I)=1+MOD(I*7,25)
      DO 1 J=1,4
    1 C(I,J)=MOD(I*2+J,4)-1
      J=2
      K=3
      DO 10 I=1,14
      A(I+1)=B(P(I))-(D(P(I+1))-C(I,J))
   10 A(I+1)=(B(I)-(MOD(K,97)))/2
      K=MOD(K,10007)
      DO 50 L=1,30
      A(L)=MOD(A(L),1009)
   50 E(L,2)=MOD(E(L,2),1009)
      WRITE (6,9) K,I,A(1),A(3),A(6),A(14),E(2,2),E(13,2)
      J=2
      K=3
      DO 11 I=1,13
      E(I,J)=B(I)-B(I)*B(I)
   11 A(I+1)=K-B(I+1)*B(P(I))
      K=MOD(K,10007)
      DO 51 L=1,30
      A(L)=MOD(A(L),1009)
   51 E(L,2)=MOD(E(L,2),1009)
      WRITE (6,9) K,I,A(1),A(3),A(6),A(14),E(2,2),E(13,2)
      J=2
      K=3
      DO 12 I=1,14
      K=MOD(B(I+1),2)
   12 A(I)=MOD(B(P(I)),2)
      K=MOD(K,10007)
      DO 52 L=1,30
      A(L)=MOD(A(L),1009)
   52 E(L,2)=MOD(E(L,2),1009)
      WRITE (6,9) K,I,A(1),A(3),A(6),A(14),E(2,2),E(13,2)
      J=2
      K=3
      DO 13 I=1,13
      E(I,J)=(K)/2+2
   13 A(I)=(B(I)-((B(I))*B(I)))/3
      K=MOD(K,10007)
      DO 53 L=1,30
      A(L)=MOD(A(L),1009)
   53 E(L,2)=MOD(E(L,2),1009)
      WRITE (6,9) K,I,A(1),A(3),A(6),A(14),E(2,2),E(13,2)
      J=2
      K=3
      DO 14 I=1,14
      A(I)=MOD(B(I),2)
   14 A(I)=C(I,J)+((I+K)/2)
      K=MOD(K,10007)
      DO 54 L=1,30
      A(L)=MOD(A(L),1009)
   54 E(L,2)=MOD(E(L,2),1009)
      WRITE (6,9) K,I,A(1),A(3),A(6),A(14),E(2,2),E(13,2)
      J=2
      K=3
      DO 15 I=1,14
      A(P(I))=(C(I,J)+((3)/2))/2
   15 A(I+1)=(C(I,J))*K
      K=MOD(K,10007)
      DO 55 L=1,30
      A(L)=MOD(A(L),1009)
   55 E(L,2)=MOD(E(L,2),1009)
      WRITE (6,9) K,I,A(1),A(3),A(6),A(14),E(2,2),E(13,2)
      J=2
      K=3
      DO 16 I=1,14
      A(I+1)=3+2
   16 A(I+1)=B(I+1)+C(I+1,J)-C(I+1,J)
      K=MOD(K,10007)
      DO 56 L=1,30
      A(L)=MOD(A(L),1009)
   56 E(L,2)=MOD(E(L,2),1009)
      WRITE (6,9) K,I,A(1),A(3),A(6),A(14),E(2,2),E(13,2)
      J=2
      K=3
      DO 17 I=1,13
      E(I,J)=B(I+1)-((B(I+1))*K)
   17 E(I,J)=(B(I)+(K-K))/2
      K=MOD(K,10007)
      DO 57 L=1,30
      A(L)=MOD(A(L),1009)
   57 E(L,2)=MOD(E(L,2),1009)
      WRITE (6,9) K,I,A(1),A(3),A(6),A(14),E(2,2),E(13,2)
      J=2
      K=3
      DO 18 I=1,13
      E(I,J)=C(I,J)+C(I,J)*B(P(I))
   18 E(I,J)=((I-J)*B(I))/3
      K=MOD(K,10007)
      DO 58 L=1,30
      A(L)=MOD(A(L),1009)
   58 E(L,2)=MOD(E(L,2),1009)
      WRITE (6,9) K,I,A(1),A(3),A(6),A(14),E(2,2),E(13,2)
      J=2
      K=3
      DO 19 I=1,13
      E(I,J)=(MOD(B(P(I)),97))/7
   19 A(I)=(K)/7
      K=MOD(K,10007)
      DO 59 L=1,30
      A(L)=MOD(A(L),1009)
   59 E(L,2)=MOD(E(L,2),1009)
      WRITE (6,9) K,I,A(1),A(3),A(6),A(14),E(2,2),E(13,2)
      J=2
      K=3
      DO 20 I=1,11
      E(I,J)=K+(MOD(I+K,5))
   20 A(I+1)=D(P(I+1))
      K=MOD(K,10007)
      DO 60 L=1,30
      A(L)=MOD(A(L),1009)
   60 E(L,2)=MOD(E(L,2),1009)
      WRITE (6,9) K,I,A(1),A(3),A(6),A(14),E(2,2),E(13,2)
      J=2
      K=3
      DO 21 I=1,13
      A(P(I))=D(P(I+1))
   21 A(P(I))=(3+B(I)*K)/3
      K=MOD(K,10007)
      DO 61 L=1,30
      A(L)=MOD(A(L),1009)
   61 E(L,2)=MOD(E(L,2),1009)
      WRITE (6,9) K,I,A(1),A(3),A(6),A(14),E(2,2),E(13,2)
    9 FORMAT (8I8)
      END
