   10 I=I+1
      IF (I.EQ.1) THEN
      GO TO 10
      ELSE
      IF (I.EQ.2) GO TO 10
      GO TO 30
      END IF
   20 I=I+100
   30 WRITE (6,40) I
      IF (I.LT.100) GO TO 20
   40 FORMAT (I4)
      END
