      DO I=1,2
      K=K+1
      GO TO (10,20),I
   10 END DO
      DO J=1,2
   20 END DO
      END
