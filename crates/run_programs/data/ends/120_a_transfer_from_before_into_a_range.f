      GO TO 10
      DO I=1,2
   10 K=K+1
      END DO
      END
