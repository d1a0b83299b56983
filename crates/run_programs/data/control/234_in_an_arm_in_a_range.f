      DO 10 I=1,3
      WRITE (6,20) I
      IF (I.EQ.2) THEN
      J=1/(I-2)
      END IF
   10 CONTINUE
   20 FORMAT (I2)
      END
