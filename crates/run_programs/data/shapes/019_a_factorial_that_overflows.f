      K=1
      DO 10 I=1,13
   10 K=K*I
      END
