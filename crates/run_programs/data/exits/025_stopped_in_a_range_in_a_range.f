      DO 20 I=1,9
      DO 10 J=1,3
      IF (I*J.EQ.18) STOP 18
      IF (I*J.EQ.10) STOP 010
   10 K=K+1
   20 CONTINUE
      END
