      DO WHILE (N.LT.10)
      DO I=1,9
      K=K+1
      IF (K.EQ.23) STOP 'IT''S 23'
      END DO
      N=N+1
      WRITE (6,10) N
      END DO
   10 FORMAT (I4)
      END
