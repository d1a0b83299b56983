      N=1
      DO WHILE (N.LT.40)
      DO I=N,2*N,2
      K=K+I
      END DO
      N=N+I/2
      END DO
      WRITE (6,10) N,I,K
   10 FORMAT (3I5)
      END
