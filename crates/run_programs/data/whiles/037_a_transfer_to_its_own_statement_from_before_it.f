      I=2
      IF (I.EQ.2) GO TO 10
      I=100
   10 DO 20 WHILE (I.LT.9)
   20 I=I*2
      WRITE (6,30) I
   30 FORMAT (I4)
      END
