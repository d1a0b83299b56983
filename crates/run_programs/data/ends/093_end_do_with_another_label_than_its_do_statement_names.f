      DO 10 I=1,2
   20 END DO
   10 CONTINUE
      END
