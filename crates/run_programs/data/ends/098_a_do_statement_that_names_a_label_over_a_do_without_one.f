      DO 10 I=1,2
      DO J=1,2
      DO 10 K=1,2
   10 CONTINUE
      END DO
      END
