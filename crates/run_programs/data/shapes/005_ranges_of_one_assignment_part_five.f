      INTEGER A(7),B(7),C(7,7),D(7),E(7,7)
      DO 1 I=1,7
      B(I)=MOD(I*3,5)-1
      D(I)=MOD(I,3)
      DO 1 J=1,7
    1 C(I,J)=MOD(I*2+J,4)
      J=2
      K=3
      DO 10 I=1,5
   10 A(I)=I+3*B(I+1)
      WRITE (6,9) K,I,A(1),A(3),A(6),E(2,2),E(5,2),E(2,6)
      J=2
      K=3
      DO 11 I=1,5
   11 A(I)=K-I+C(J,I)*D(I)
      WRITE (6,9) K,I,A(1),A(3),A(6),E(2,2),E(5,2),E(2,6)
      J=2
      K=3
      DO 12 I=1,5
   12 E(J,I+1)=C(I,J)*C(I,J)
      WRITE (6,9) K,I,A(1),A(3),A(6),E(2,2),E(5,2),E(2,6)
      J=2
      K=3
      DO 13 I=1,5
   13 A(K)=K+B(I)*C(I,J)
      WRITE (6,9) K,I,A(1),A(3),A(6),E(2,2),E(5,2),E(2,6)
      J=2
      K=3
      DO 14 I=1,5
   14 K=K+C(I,J)*C(J,I)
      WRITE (6,9) K,I,A(1),A(3),A(6),E(2,2),E(5,2),E(2,6)
      J=2
      K=3
      DO 15 I=1,5
   15 E(I,J)=I+B(I)*D(I)
      WRITE (6,9) K,I,A(1),A(3),A(6),E(2,2),E(5,2),E(2,6)
      J=2
      K=3
      DO 16 I=1,5
   16 K=I+K+B(I)*C(I,J)
      WRITE (6,9) K,I,A(1),A(3),A(6),E(2,2),E(5,2),E(2,6)
      J=2
      K=3
      DO 17 I=1,5
   17 E(I,J)=B(I+1)*K
      WRITE (6,9) K,I,A(1),A(3),A(6),E(2,2),E(5,2),E(2,6)
      J=2
      K=3
      DO 18 I=1,5
   18 A(K)=7+B(I)*C(I,J)
      WRITE (6,9) K,I,A(1),A(3),A(6),E(2,2),E(5,2),E(2,6)
      J=2
      K=3
      DO 19 I=1,5
   19 E(I,J)=K*3
      WRITE (6,9) K,I,A(1),A(3),A(6),E(2,2),E(5,2),E(2,6)
      J=2
      K=3
      DO 20 I=1,5
   20 A(I+1)=I+3-K
      WRITE (6,9) K,I,A(1),A(3),A(6),E(2,2),E(5,2),E(2,6)
      J=2
      K=3
      DO 21 I=1,5
   21 A(K)=7-K
      WRITE (6,9) K,I,A(1),A(3),A(6),E(2,2),E(5,2),E(2,6)
      J=2
      K=3
      DO 22 I=1,5
   22 A(I+1)=B(I)-C(J,I)
      WRITE (6,9) K,I,A(1),A(3),A(6),E(2,2),E(5,2),E(2,6)
      J=2
      K=3
      DO 23 I=1,5
   23 E(I,J)=K-2-4
      WRITE (6,9) K,I,A(1),A(3),A(6),E(2,2),E(5,2),E(2,6)
      J=2
      K=3
      DO 24 I=1,5
   24 K=C(J,I+1)*K
      WRITE (6,9) K,I,A(1),A(3),A(6),E(2,2),E(5,2),E(2,6)
      J=2
      K=3
      DO 25 I=1,5
   25 E(J,I+1)=K-I*K
      WRITE (6,9) K,I,A(1),A(3),A(6),E(2,2),E(5,2),E(2,6)
      J=2
      K=3
      DO 26 I=1,5
   26 K=I+3*B(I+1)
      WRITE (6,9) K,I,A(1),A(3),A(6),E(2,2),E(5,2),E(2,6)
      J=2
      K=3
      DO 27 I=1,5
   27 A(I)=C(J,I+1)-4
      WRITE (6,9) K,I,A(1),A(3),A(6),E(2,2),E(5,2),E(2,6)
      J=2
      K=3
      DO 28 I=1,5
   28 K=C(I,J)-K
      WRITE (6,9) K,I,A(1),A(3),A(6),E(2,2),E(5,2),E(2,6)
      J=2
      K=3
      DO 29 I=1,5
   29 A(K)=K-2*3
      WRITE (6,9) K,I,A(1),A(3),A(6),E(2,2),E(5,2),E(2,6)
      J=2
      K=3
      DO 30 I=1,5
   30 A(I+1)=K*K
      WRITE (6,9) K,I,A(1),A(3),A(6),E(2,2),E(5,2),E(2,6)
      J=2
      K=3
      DO 31 I=1,5
   31 K=I*3
      WRITE (6,9) K,I,A(1),A(3),A(6),E(2,2),E(5,2),E(2,6)
      J=2
      K=3
      DO 32 I=1,5
   32 E(J,I+1)=C(I,J)+K
      WRITE (6,9) K,I,A(1),A(3),A(6),E(2,2),E(5,2),E(2,6)
      J=2
      K=3
      DO 33 I=1,5
   33 K=7+C(J,I)*D(I)
      WRITE (6,9) K,I,A(1),A(3),A(6),E(2,2),E(5,2),E(2,6)
      J=2
      K=3
      DO 34 I=1,5
   34 A(I)=C(I,J)*K
      WRITE (6,9) K,I,A(1),A(3),A(6),E(2,2),E(5,2),E(2,6)
      J=2
      K=3
      DO 35 I=1,5
   35 A(K)=I*4
      WRITE (6,9) K,I,A(1),A(3),A(6),E(2,2),E(5,2),E(2,6)
      J=2
      K=3
      DO 36 I=1,5
   36 A(K)=C(J,I+1)-4
      WRITE (6,9) K,I,A(1),A(3),A(6),E(2,2),E(5,2),E(2,6)
      J=2
      K=3
      DO 37 I=1,5
   37 K=K-I-K
      WRITE (6,9) K,I,A(1),A(3),A(6),E(2,2),E(5,2),E(2,6)
      J=2
      K=3
      DO 38 I=1,5
   38 A(I)=B(I+1)-B(I)
      WRITE (6,9) K,I,A(1),A(3),A(6),E(2,2),E(5,2),E(2,6)
      J=2
      K=3
      DO 39 I=1,5
   39 A(K)=I*4*3
      WRITE (6,9) K,I,A(1),A(3),A(6),E(2,2),E(5,2),E(2,6)
      J=2
      K=3
      DO 40 I=1,5
   40 E(I,J)=C(I,J)+B(I)*D(I)
      WRITE (6,9) K,I,A(1),A(3),A(6),E(2,2),E(5,2),E(2,6)
      J=2
      K=3
      DO 41 I=1,5
   41 E(I,J)=I+K+B(I)*C(I,J)
      WRITE (6,9) K,I,A(1),A(3),A(6),E(2,2),E(5,2),E(2,6)
      J=2
      K=3
      DO 42 I=1,5
   42 A(I+1)=K-2+B(I)*D(I)
      WRITE (6,9) K,I,A(1),A(3),A(6),E(2,2),E(5,2),E(2,6)
      J=2
      K=3
      DO 43 I=1,5
   43 A(K)=B(I+1)-C(J,I)
      WRITE (6,9) K,I,A(1),A(3),A(6),E(2,2),E(5,2),E(2,6)
      J=2
      K=3
      DO 44 I=1,5
   44 K=I+3
      WRITE (6,9) K,I,A(1),A(3),A(6),E(2,2),E(5,2),E(2,6)
      J=2
      K=3
      DO 45 I=1,5
   45 E(I,J)=C(J,I+1)+B(I)
      WRITE (6,9) K,I,A(1),A(3),A(6),E(2,2),E(5,2),E(2,6)
      J=2
      K=3
      DO 46 I=1,5
   46 A(I)=I*K-B(I)
      WRITE (6,9) K,I,A(1),A(3),A(6),E(2,2),E(5,2),E(2,6)
      J=2
      K=3
      DO 47 I=1,5
   47 A(I+1)=B(I)*B(I+1)
      WRITE (6,9) K,I,A(1),A(3),A(6),E(2,2),E(5,2),E(2,6)
      J=2
      K=3
      DO 48 I=1,5
   48 A(K)=I*K+C(J,I)*D(I)
      WRITE (6,9) K,I,A(1),A(3),A(6),E(2,2),E(5,2),E(2,6)
      J=2
      K=3
      DO 49 I=1,5
   49 A(I)=I*C(I,J)
      WRITE (6,9) K,I,A(1),A(3),A(6),E(2,2),E(5,2),E(2,6)
      J=2
      K=3
      DO 50 I=1,5
   50 A(K)=I*K*C(I,J)
      WRITE (6,9) K,I,A(1),A(3),A(6),E(2,2),E(5,2),E(2,6)
      J=2
      K=3
      DO 51 I=1,5
   51 K=K+B(I)*C(I,J)
      WRITE (6,9) K,I,A(1),A(3),A(6),E(2,2),E(5,2),E(2,6)
      J=2
      K=3
      DO 52 I=1,5
   52 A(I+1)=K-2*B(I+1)
      WRITE (6,9) K,I,A(1),A(3),A(6),E(2,2),E(5,2),E(2,6)
      J=2
      K=3
      DO 53 I=1,5
   53 E(J,I+1)=B(I)-B(I)
      WRITE (6,9) K,I,A(1),A(3),A(6),E(2,2),E(5,2),E(2,6)
      J=2
      K=3
      DO 54 I=1,5
   54 A(I)=K+C(I,J)*C(J,I)
      WRITE (6,9) K,I,A(1),A(3),A(6),E(2,2),E(5,2),E(2,6)
    9 FORMAT (8I9)
      END
