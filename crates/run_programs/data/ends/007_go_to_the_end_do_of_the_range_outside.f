      DO I=1,4
      DO J=1,4
      IF (J.GT.I) GO TO 10
      K=K+10*I+J
      END DO
      K=K+1000
   10 END DO
      WRITE (6,20) I,J,K
   20 FORMAT (3I6)
      END
