C TURNS 40
      INTEGER A(10)
      N=1
      DO WHILE (N.LT.6)
      WRITE (6,10) N
      DO I=1,10
      A(I)=A(I)+N
      END DO
      N=N+1
      END DO
   10 FORMAT (I4)
      END
