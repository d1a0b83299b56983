      DO 20 I=1,3
      DO 10 J=1,3
      IF (I.EQ.J) GO TO 20
   10 K=K+1
   20 CONTINUE
      END
