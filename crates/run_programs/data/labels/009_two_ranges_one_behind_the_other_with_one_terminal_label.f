      DO 10 I=1,2
   10 K=K+I
      DO 10 J=1,2
   10 K=K+J
      END
