      DO 10 I=1,12
      IF (I.EQ.7) STOP 7
      IF (I.EQ.5) STOP 5
   10 K=K+1
      END
