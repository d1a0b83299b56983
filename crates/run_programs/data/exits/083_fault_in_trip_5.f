      DATA N/5/
      DO 10 I=1,12
      IF (I.EQ.N+1) K=0**L
   10 J=12/(N-I)
      END
