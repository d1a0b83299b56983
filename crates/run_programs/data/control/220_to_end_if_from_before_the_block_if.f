      GO TO 20
      IF (I.EQ.0) THEN
      J=1
   20 END IF
      WRITE (6,30) J
   30 FORMAT (I2)
      END
