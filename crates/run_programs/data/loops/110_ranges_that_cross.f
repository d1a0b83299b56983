      DO 10 I=1,2
      DO 20 J=1,2
   10 K=1
   20 K=2
      END
