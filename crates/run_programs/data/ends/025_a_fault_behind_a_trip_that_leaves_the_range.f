      DO I=1,9
      IF (I.EQ.4) GO TO 10
      K=K+12/(5-I)
      END DO
   10 WRITE (6,20) I,K
   20 FORMAT (2I4)
      END
