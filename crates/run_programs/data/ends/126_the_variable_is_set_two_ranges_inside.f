      DO I=1,2
      DO 10 J=1,2
      DO K=1,2
      I=K
      END DO
   10 END DO
      END DO
      END
