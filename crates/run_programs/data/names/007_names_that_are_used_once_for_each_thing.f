      PROGRAM NAMES
      PARAMETER (N=4)
      INTEGER A
      DIMENSION A(N)
      ISQ(K)=K*K
      DO 10 I=1,N
   10 A(I)=ISQ(I)
      WRITE (6,20) A,N
   20 FORMAT (5I4)
      END
