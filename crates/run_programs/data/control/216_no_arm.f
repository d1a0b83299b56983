      IF (I.EQ.1) THEN
      J=1
      ELSE IF (I.EQ.2) THEN
      J=2
      END IF
      WRITE (6,20) J
   20 FORMAT (I2)
      END
