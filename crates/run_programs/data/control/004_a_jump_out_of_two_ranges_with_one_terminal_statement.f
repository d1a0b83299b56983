      DO 10 I=1,9
      DO 10 J=1,9
      IF (I*J.EQ.42) GO TO 20
   10 K=K+1
   20 WRITE (6,30) I,J,K
   30 FORMAT (3I4)
      END
