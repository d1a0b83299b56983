      DO 10 I=1,2
      DO 10 J=1,2
      DO 10 K=1,2
      N=N+1
   10 END DO
      END DO
      END
