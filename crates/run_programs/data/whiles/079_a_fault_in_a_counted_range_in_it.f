      INTEGER A(10)
      N=7
      DO WHILE (N.LT.20)
      WRITE (6,10) N
      DO I=1,N
      A(I)=A(I)+N
      END DO
      N=N+2
      END DO
   10 FORMAT (I4)
      END
