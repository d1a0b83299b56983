      DO 10 WHILE (I.LT.3)
      DO J=1,2
      DO 10 WHILE (K.LT.3)
      K=K+1
      END DO
   10 CONTINUE
      END
