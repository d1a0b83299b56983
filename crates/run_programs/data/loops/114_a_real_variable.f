      DO 10 X=1,2
   10 K=1
      END
