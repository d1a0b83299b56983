      IF (I.EQ.0) THEN
      DO 10 I=1,3
      WRITE (6,20) I
      IF (I.EQ.2) STOP
   10 CONTINUE
      END IF
   20 FORMAT (I2)
      END
