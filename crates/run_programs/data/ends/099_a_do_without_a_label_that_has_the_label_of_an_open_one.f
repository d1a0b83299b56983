      DO 10 I=1,2
   10 DO J=1,2
      END DO
      END
