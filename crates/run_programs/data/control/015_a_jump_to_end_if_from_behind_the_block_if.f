      IF (I.EQ.0) THEN
      I=1
   10 END IF
      I=I+1
      IF (I.LT.5) GO TO 10
      WRITE (6,20) I
   20 FORMAT (I2)
      END
