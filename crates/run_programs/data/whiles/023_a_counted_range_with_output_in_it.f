      N=3
      DO WHILE (N.GT.0)
      DO I=1,N
      WRITE (6,10) N,I
      END DO
      N=N-1
      END DO
   10 FORMAT (2I3)
      END
