      DO 10 I=1,6
      IF (I.EQ.2) THEN
      WRITE (6,20) I,1
      ELSE IF (I.GT.4) THEN
      WRITE (6,20) I,2
      ELSE IF (I.EQ.3.OR.I.EQ.5) THEN
      WRITE (6,20) I,3
      ELSE
      WRITE (6,20) I,4
      END IF
   10 CONTINUE
   20 FORMAT (2I2)
      END
