C TURNS 26
   10 WRITE (6,20) I
      I=I+1
      IF (I.LT.7) GO TO 30
      I=0
   30 GO TO 10
   20 FORMAT (I3)
      END
