      DO I=1,2
      K=K+1
   10 END DO
      IF (K.LT.9) GO TO 10
      END
