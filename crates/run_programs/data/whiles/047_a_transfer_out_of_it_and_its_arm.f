      DO I=1,5
      IF (I.GT.2) THEN
      N=0
      DO WHILE (N.LT.10)
      N=N+I
      IF (N.EQ.8) GO TO 10
      END DO
      END IF
      K=K+N
      END DO
   10 WRITE (6,20) I,N,K
   20 FORMAT (3I4)
      END
