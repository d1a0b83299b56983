      DO I=2,8,3
      K=K+I
      IF (I.EQ.8) GO TO 10
      K=K+100
   10 END DO
      WRITE (6,20) I,K
   20 FORMAT (2I4)
      END
