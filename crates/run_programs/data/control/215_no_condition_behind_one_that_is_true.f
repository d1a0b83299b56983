      DO 10 I=1,3
      IF (I.EQ.1) THEN
      J=1
      ELSE IF (1/(I-1).EQ.1) THEN
      J=2
      ELSE
      J=3
      END IF
   10 WRITE (6,20) I,J
   20 FORMAT (2I2)
      END
