      DO 10 I=1,2
   10 DO WHILE (K.LT.3)
      K=K+1
      END DO
      END
