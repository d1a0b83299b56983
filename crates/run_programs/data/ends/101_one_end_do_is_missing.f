      DO I=1,2
      DO J=1,2
      K=K+1
      END DO
      END
