      INTEGER A(30),B(30),C(30,4),D(30),E(30,4),P(30)
      DO 1 I=1,30
      B(I)=MOD(I*3,5)-1
      D(I)=MOD(I,3)
      P(I)=1+MOD(I*7,25)
      DO 1 J=1,4
    1 C(I,J)=MOD(I*2+J,4)-1
      J=2
      K=3
      DO 10 I=1,13
      A(P(I))=3
      A(I+1)=(MOD(3,2))*C(I,J)
      A(I)=B(P(I))-((K)/2)
   10 A(P(I))=MOD((K*2)/7,2)
      K=MOD(K,10007)
      DO 50 L=1,30
      A(L)=MOD(A(L),1009)
   50 E(L,2)=MOD(E(L,2),1009)
      WRITE (6,9) K,I,A(1),A(3),A(6),A(14),E(2,2),E(13,2)
      J=2
      K=3
      DO 11 I=1,15
      E(I,J)=C(I,J)+2
      A(P(I))=(K)*D(I+1)
   11 E(I,J)=MOD((B(P(I)))*K,2)
      K=MOD(K,10007)
      DO 51 L=1,30
      A(L)=MOD(A(L),1009)
   51 E(L,2)=MOD(E(L,2),1009)
      WRITE (6,9) K,I,A(1),A(3),A(6),A(14),E(2,2),E(13,2)
      J=2
      K=3
      DO 12 I=1,15
      A(I)=(B(P(I))-B(I+1)*K*2)/2
      A(I+1)=C(I,J)-(B(I)-2)
   12 A(I+1)=(MOD(B(P(I)),2))/3
      K=MOD(K,10007)
      DO 52 L=1,30
      A(L)=MOD(A(L),1009)
   52 E(L,2)=MOD(E(L,2),1009)
      WRITE (6,9) K,I,A(1),A(3),A(6),A(14),E(2,2),E(13,2)
      J=2
      K=3
      DO 13 I=1,13
      A(I+1)=(MOD(K*2,5))/3
      A(I)=(B(I+1)+K*C(I,J))/3
      A(I)=(K*2+B(I))/7
   13 A(I+1)=MOD(C(I,J),5)
      K=MOD(K,10007)
      DO 53 L=1,30
      A(L)=MOD(A(L),1009)
   53 E(L,2)=MOD(E(L,2),1009)
      WRITE (6,9) K,I,A(1),A(3),A(6),A(14),E(2,2),E(13,2)
      J=2
      K=3
      DO 14 I=1,13
      K=(K*2+B(P(I))*K)/3
      A(I+1)=C(I,J)-(3+D(I+1))
      E(I,J)=MOD(C(I,J),2)
   14 A(P(I))=B(I)
      K=MOD(K,10007)
      DO 54 L=1,30
      A(L)=MOD(A(L),1009)
   54 E(L,2)=MOD(E(L,2),1009)
      WRITE (6,9) K,I,A(1),A(3),A(6),A(14),E(2,2),E(13,2)
      J=2
      K=3
      DO 15 I=1,15
      A(P(I))=B(P(I))-(B(P(I))+2)
      A(I)=MOD(I-J,97)
   15 A(I)=K*2-((K*2)/3)
      K=MOD(K,10007)
      DO 55 L=1,30
      A(L)=MOD(A(L),1009)
   55 E(L,2)=MOD(E(L,2),1009)
      WRITE (6,9) K,I,A(1),A(3),A(6),A(14),E(2,2),E(13,2)
      J=2
      K=3
      DO 16 I=1,15
      E(I,J)=D(P(I+1))
      A(I+1)=B(I+1)
   16 A(P(I))=(C(I,J)+K)/7
      K=MOD(K,10007)
      DO 56 L=1,30
      A(L)=MOD(A(L),1009)
   56 E(L,2)=MOD(E(L,2),1009)
      WRITE (6,9) K,I,A(1),A(3),A(6),A(14),E(2,2),E(13,2)
      J=2
      K=3
      DO 17 I=1,13
      A(P(I))=(D(P(I+1))-K*B(P(I)))/2
      A(I)=(B(P(I))+((D(P(I+1)))/2))/2
      A(I)=C(I,J)+(MOD(C(I,J),2))
   17 E(I,J)=((I+K)/3)/7
      K=MOD(K,10007)
      DO 57 L=1,30
      A(L)=MOD(A(L),1009)
   57 E(L,2)=MOD(E(L,2),1009)
      WRITE (6,9) K,I,A(1),A(3),A(6),A(14),E(2,2),E(13,2)
      J=2
      K=3
      DO 18 I=1,15
      A(P(I))=I-J+D(I+1)
      A(I+1)=K*2
   18 E(I,J)=B(I+1)
      K=MOD(K,10007)
      DO 58 L=1,30
      A(L)=MOD(A(L),1009)
   58 E(L,2)=MOD(E(L,2),1009)
      WRITE (6,9) K,I,A(1),A(3),A(6),A(14),E(2,2),E(13,2)
      J=2
      K=3
      DO 19 I=1,13
      A(I+1)=I-J+K*2*B(P(I))
      E(I,J)=B(I+1)+(C(I,J)+D(I+1))
      E(I,J)=B(I+1)+C(I,J)*B(P(I))
   19 A(P(I))=B(I+1)-((K*2)/7)
      K=MOD(K,10007)
      DO 59 L=1,30
      A(L)=MOD(A(L),1009)
   59 E(L,2)=MOD(E(L,2),1009)
      WRITE (6,9) K,I,A(1),A(3),A(6),A(14),E(2,2),E(13,2)
    9 FORMAT (8I8)
      END
