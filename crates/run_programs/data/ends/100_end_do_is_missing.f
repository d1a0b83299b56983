      DO I=1,2
      K=K+1
      END
