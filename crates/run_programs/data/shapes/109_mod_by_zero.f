      N=60
      DO 10 I=-9,9
      IF (MOD(N,I).EQ.0) K=K+1
   10 CONTINUE
      END
