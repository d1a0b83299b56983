      INTEGER A(12),B(12)
      DO 5 I=1,12
    5 B(I)=I*I
      DO 20 N=1,12
      DO 10 I=1,N
   10 A(I)=A(I)+B(I)
      DO 15 I=N,1,-1
   15 K=K+A(I)
   20 WRITE (6,9) N,I,K,A
    9 FORMAT (3I7/12I6)
      END
