      DO 10 I=1,2,3,4
   10 K=1
      END
