      IF (.TRUE.) THEN
      I=1
   10 I=I+I
      IF (I.LT.100) GO TO 10
      IF (I.EQ.128) GO TO 20
      I=0
   20 WRITE (6,30) I
      END IF
   30 FORMAT (I4)
      END
