      I=1
      IF (I.EQ.1) THEN
      I=2
      ELSE IF (I.EQ.2) THEN
      I=3
      ELSE
      I=4
      END IF
      WRITE (6,10) I
   10 FORMAT (I2)
      END
