      DO 10 I=1,12
      IF (I.EQ.5) GO TO 20
   10 K=6/(6-I)
   20 WRITE (6,30) I,K
   30 FORMAT (2I3)
      END
