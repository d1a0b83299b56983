      DO 10 I=1,2
      DO J=1,2
   10 END DO
      END DO
      END
