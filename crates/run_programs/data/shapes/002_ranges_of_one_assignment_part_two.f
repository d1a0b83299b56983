      INTEGER A(7),B(7),C(7,7),D(7),E(7,7)
      DO 1 I=1,7
      B(I)=MOD(I*3,5)-1
      D(I)=MOD(I,3)
      DO 1 J=1,7
    1 C(I,J)=MOD(I*2+J,4)
      J=2
      K=3
      DO 10 I=1,5
   10 A(I+1)=K+K
      WRITE (6,9) K,I,A(1),A(3),A(6),E(2,2),E(5,2),E(2,6)
      J=2
      K=3
      DO 11 I=1,5
   11 A(I+1)=I+K
      WRITE (6,9) K,I,A(1),A(3),A(6),E(2,2),E(5,2),E(2,6)
      J=2
      K=3
      DO 12 I=1,5
   12 A(I+1)=B(I)+K
      WRITE (6,9) K,I,A(1),A(3),A(6),E(2,2),E(5,2),E(2,6)
      J=2
      K=3
      DO 13 I=1,5
   13 K=I+K-C(J,I)
      WRITE (6,9) K,I,A(1),A(3),A(6),E(2,2),E(5,2),E(2,6)
      J=2
      K=3
      DO 14 I=1,5
   14 E(I,J)=I*4-K
      WRITE (6,9) K,I,A(1),A(3),A(6),E(2,2),E(5,2),E(2,6)
      J=2
      K=3
      DO 15 I=1,5
   15 A(K)=I*4+B(I)
      WRITE (6,9) K,I,A(1),A(3),A(6),E(2,2),E(5,2),E(2,6)
      J=2
      K=3
      DO 16 I=1,5
   16 E(J,I+1)=K+B(I)*C(I,J)
      WRITE (6,9) K,I,A(1),A(3),A(6),E(2,2),E(5,2),E(2,6)
      J=2
      K=3
      DO 17 I=1,5
   17 E(I,J)=I*K-C(J,I)
      WRITE (6,9) K,I,A(1),A(3),A(6),E(2,2),E(5,2),E(2,6)
      J=2
      K=3
      DO 18 I=1,5
   18 K=C(J,I+1)+B(I)*C(I,J)
      WRITE (6,9) K,I,A(1),A(3),A(6),E(2,2),E(5,2),E(2,6)
      J=2
      K=3
      DO 19 I=1,5
   19 A(K)=C(I,J)*K
      WRITE (6,9) K,I,A(1),A(3),A(6),E(2,2),E(5,2),E(2,6)
      J=2
      K=3
      DO 20 I=1,5
   20 E(J,I+1)=K-I*B(I+1)
      WRITE (6,9) K,I,A(1),A(3),A(6),E(2,2),E(5,2),E(2,6)
      J=2
      K=3
      DO 21 I=1,5
   21 A(I+1)=K-K
      WRITE (6,9) K,I,A(1),A(3),A(6),E(2,2),E(5,2),E(2,6)
      J=2
      K=3
      DO 22 I=1,5
   22 A(K)=7+B(I)
      WRITE (6,9) K,I,A(1),A(3),A(6),E(2,2),E(5,2),E(2,6)
      J=2
      K=3
      DO 23 I=1,5
   23 K=I+K+C(I,J)*C(J,I)
      WRITE (6,9) K,I,A(1),A(3),A(6),E(2,2),E(5,2),E(2,6)
      J=2
      K=3
      DO 24 I=1,5
   24 E(J,I+1)=I*C(I,J)
      WRITE (6,9) K,I,A(1),A(3),A(6),E(2,2),E(5,2),E(2,6)
      J=2
      K=3
      DO 25 I=1,5
   25 E(J,I+1)=K-I+B(I)*C(I,J)
      WRITE (6,9) K,I,A(1),A(3),A(6),E(2,2),E(5,2),E(2,6)
      J=2
      K=3
      DO 26 I=1,5
   26 E(J,I+1)=K-4
      WRITE (6,9) K,I,A(1),A(3),A(6),E(2,2),E(5,2),E(2,6)
      J=2
      K=3
      DO 27 I=1,5
   27 A(I+1)=C(J,I+1)-C(J,I)
      WRITE (6,9) K,I,A(1),A(3),A(6),E(2,2),E(5,2),E(2,6)
      J=2
      K=3
      DO 28 I=1,5
   28 A(I)=7+K
      WRITE (6,9) K,I,A(1),A(3),A(6),E(2,2),E(5,2),E(2,6)
      J=2
      K=3
      DO 29 I=1,5
   29 A(I)=B(I)+C(J,I)*D(I)
      WRITE (6,9) K,I,A(1),A(3),A(6),E(2,2),E(5,2),E(2,6)
      J=2
      K=3
      DO 30 I=1,5
   30 E(I,J)=K-I*3
      WRITE (6,9) K,I,A(1),A(3),A(6),E(2,2),E(5,2),E(2,6)
      J=2
      K=3
      DO 31 I=1,5
   31 A(K)=B(I)+B(I)*D(I)
      WRITE (6,9) K,I,A(1),A(3),A(6),E(2,2),E(5,2),E(2,6)
      J=2
      K=3
      DO 32 I=1,5
   32 E(J,I+1)=B(I+1)*K
      WRITE (6,9) K,I,A(1),A(3),A(6),E(2,2),E(5,2),E(2,6)
      J=2
      K=3
      DO 33 I=1,5
   33 E(I,J)=I*K-B(I)
      WRITE (6,9) K,I,A(1),A(3),A(6),E(2,2),E(5,2),E(2,6)
      J=2
      K=3
      DO 34 I=1,5
   34 A(K)=K-I*3
      WRITE (6,9) K,I,A(1),A(3),A(6),E(2,2),E(5,2),E(2,6)
      J=2
      K=3
      DO 35 I=1,5
   35 A(K)=B(I+1)*3
      WRITE (6,9) K,I,A(1),A(3),A(6),E(2,2),E(5,2),E(2,6)
      J=2
      K=3
      DO 36 I=1,5
   36 A(K)=B(I)-K
      WRITE (6,9) K,I,A(1),A(3),A(6),E(2,2),E(5,2),E(2,6)
      J=2
      K=3
      DO 37 I=1,5
   37 E(J,I+1)=B(I)*B(I+1)
      WRITE (6,9) K,I,A(1),A(3),A(6),E(2,2),E(5,2),E(2,6)
      J=2
      K=3
      DO 38 I=1,5
   38 K=K-2*C(I,J)
      WRITE (6,9) K,I,A(1),A(3),A(6),E(2,2),E(5,2),E(2,6)
      J=2
      K=3
      DO 39 I=1,5
   39 E(J,I+1)=C(I,J)+C(I,J)
      WRITE (6,9) K,I,A(1),A(3),A(6),E(2,2),E(5,2),E(2,6)
      J=2
      K=3
      DO 40 I=1,5
   40 A(I+1)=I+3+B(I)*C(I,J)
      WRITE (6,9) K,I,A(1),A(3),A(6),E(2,2),E(5,2),E(2,6)
      J=2
      K=3
      DO 41 I=1,5
   41 K=I*4*B(I+1)
      WRITE (6,9) K,I,A(1),A(3),A(6),E(2,2),E(5,2),E(2,6)
      J=2
      K=3
      DO 42 I=1,5
   42 A(K)=C(I,J)-C(J,I)
      WRITE (6,9) K,I,A(1),A(3),A(6),E(2,2),E(5,2),E(2,6)
      J=2
      K=3
      DO 43 I=1,5
   43 A(I)=I+K+C(I,J)
      WRITE (6,9) K,I,A(1),A(3),A(6),E(2,2),E(5,2),E(2,6)
      J=2
      K=3
      DO 44 I=1,5
   44 K=B(I+1)+C(I,J)*C(J,I)
      WRITE (6,9) K,I,A(1),A(3),A(6),E(2,2),E(5,2),E(2,6)
      J=2
      K=3
      DO 45 I=1,5
   45 A(K)=I*K+K
      WRITE (6,9) K,I,A(1),A(3),A(6),E(2,2),E(5,2),E(2,6)
      J=2
      K=3
      DO 46 I=1,5
   46 E(J,I+1)=I*B(I+1)
      WRITE (6,9) K,I,A(1),A(3),A(6),E(2,2),E(5,2),E(2,6)
      J=2
      K=3
      DO 47 I=1,5
   47 A(I+1)=I+C(J,I)*D(I)
      WRITE (6,9) K,I,A(1),A(3),A(6),E(2,2),E(5,2),E(2,6)
      J=2
      K=3
      DO 48 I=1,5
   48 A(K)=I+K+B(I)
      WRITE (6,9) K,I,A(1),A(3),A(6),E(2,2),E(5,2),E(2,6)
      J=2
      K=3
      DO 49 I=1,5
   49 A(I)=7+B(I)*D(I)
      WRITE (6,9) K,I,A(1),A(3),A(6),E(2,2),E(5,2),E(2,6)
      J=2
      K=3
      DO 50 I=1,5
   50 A(K)=7
      WRITE (6,9) K,I,A(1),A(3),A(6),E(2,2),E(5,2),E(2,6)
      J=2
      K=3
      DO 51 I=1,5
   51 A(I+1)=B(I+1)-B(I)
      WRITE (6,9) K,I,A(1),A(3),A(6),E(2,2),E(5,2),E(2,6)
      J=2
      K=3
      DO 52 I=1,5
   52 E(J,I+1)=I+K
      WRITE (6,9) K,I,A(1),A(3),A(6),E(2,2),E(5,2),E(2,6)
      J=2
      K=3
      DO 53 I=1,5
   53 K=I*K+C(I,J)*C(J,I)
      WRITE (6,9) K,I,A(1),A(3),A(6),E(2,2),E(5,2),E(2,6)
      J=2
      K=3
      DO 54 I=1,5
   54 E(J,I+1)=I+3-K
      WRITE (6,9) K,I,A(1),A(3),A(6),E(2,2),E(5,2),E(2,6)
    9 FORMAT (8I9)
      END
