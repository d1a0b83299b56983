      DO 10 I=1,2
      DO J=1,2
      DO K=1,2
      END DO
   10 N=N+1
      END DO
      END
