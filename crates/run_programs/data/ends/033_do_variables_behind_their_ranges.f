      DO I=1,10,4
      DO J=I,5
      IF (J.EQ.3) GO TO 10
      END DO
   10 K=K+J
      END DO
      DO L=5,5
      END DO
      DO M=I,1,-6
      END DO
      WRITE (6,20) I,J,K,L,M
   20 FORMAT (5I4)
      END
