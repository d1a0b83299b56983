      DO 20 I=1,3
      DO 10 J=1,3
      IF (I*J.EQ.4) GO TO 30
   10 K=K+1
   20 CONTINUE
   30 WRITE (6,40) I,J,K
   40 FORMAT (3I3)
      END
