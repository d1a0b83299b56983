      DO 10 I=1,12
      IF (I.EQ.5) GO TO 20
   10 IF (I.EQ.6) STOP 'SIXTH'
   20 WRITE (6,30) I
   30 FORMAT (I3)
      END
