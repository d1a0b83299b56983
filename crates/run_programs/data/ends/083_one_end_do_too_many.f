      DO I=1,2
      K=K+1
      END DO
      END DO
      END
