      DO 10 I=1,3
      WRITE (6,20) I
      IF (I.EQ.2) GO TO 30
   10 CONTINUE
      WRITE (6,20) 9
   20 FORMAT (I2)
   30 END
