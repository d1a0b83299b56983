      DO 10 I=1,2
      DO WHILE (K.LT.I)
   10 K=K+1
      END DO
      END
