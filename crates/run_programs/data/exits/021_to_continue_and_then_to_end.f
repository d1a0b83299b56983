      WRITE (6,30) 1
      DO 10 I=1,9
      IF (I.EQ.5) GO TO 20
   10 CONTINUE
      WRITE (6,30) 2
   20 CONTINUE
   30 FORMAT (I3)
      IF (I.EQ.5) GO TO 40
      WRITE (6,30) 3
   40 END
