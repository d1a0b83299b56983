      DO I=1,5
      K=K+I
      IF (K.GT.0) GO TO 10
      END DO
   10 DO J=1,5
      K=K+J
      IF (J.EQ.5) GO TO 20
      END DO
   20 WRITE (6,30) I,J,K
   30 FORMAT (3I4)
      END
