   10 DO WHILE (I.LT.6)
      I=I+1
      N=0
      DO WHILE (.TRUE.)
      N=N+1
      IF (N.GT.I) GO TO 10
      K=K+N
      END DO
      K=1000
      END DO
      WRITE (6,20) I,N,K
   20 FORMAT (3I5)
      END
