      DO I=1,5
      J=0
   10 J=J+I
      IF (J.LT.10) GO TO 10
      K=K+J
   20 CONTINUE
      END DO
      WRITE (6,30) I,J,K
   30 FORMAT (3I4)
      END
