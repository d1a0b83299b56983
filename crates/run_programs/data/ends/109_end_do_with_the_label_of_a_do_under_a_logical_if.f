      DO 10 I=1,2
   10 IF (I.EQ.1) END DO
      END
