      DO I=1,2
   10 END DO
      DO J=1,2
   10 END DO
      END
