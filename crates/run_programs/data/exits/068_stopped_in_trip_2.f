      DATA N/2/
      DO 10 I=1,12
      IF (I.EQ.N+1) STOP 2
   10 IF (I.EQ.N) STOP 1
      END
