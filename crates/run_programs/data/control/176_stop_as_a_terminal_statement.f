      DO 10 I=1,3
   10 STOP
      END
