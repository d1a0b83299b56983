   10 DO I=1,4
      K=K+I
      IF (K.EQ.3.OR.K.EQ.9) GO TO 10
      END DO
      IF (K.LT.30) GO TO 10
      WRITE (6,20) I,K
   20 FORMAT (2I4)
      END
