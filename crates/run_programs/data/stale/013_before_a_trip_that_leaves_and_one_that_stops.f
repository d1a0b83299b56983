      DO 10 I=1,9
      IF (I.EQ.6) GO TO 20
      IF (I.EQ.7) STOP
   10 K=1/(5-I)
   20 WRITE (6,30) I
   30 FORMAT (I3)
      END
