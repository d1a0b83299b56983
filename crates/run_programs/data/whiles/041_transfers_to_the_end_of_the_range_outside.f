      DO 10 WHILE (I.LT.6)
      I=I+1
      DO J=1,9
      K=K+1
      IF (J.GT.I/2) GO TO 10
      END DO
   10 END DO
      WRITE (6,20) I,J,K
      DO 30 I=1,6
      N=9
      DO WHILE (N.GT.I)
      N=N-2
      IF (N.EQ.3) GO TO 30
      K=K+N
      END DO
   30 CONTINUE
      WRITE (6,20) I,N,K
   20 FORMAT (3I4)
      END
