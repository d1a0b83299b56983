      DO I=1,5
      DO 10 WHILE (J.LT.3)
      J=J+1
      DO 10 I=1,2
   10 K=K+1
      END DO
      END
