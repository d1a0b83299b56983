      IF (I.EQ.0) THEN
      J=1
      IF (J.EQ.1) THEN
      GO TO 10
      END IF
      J=2
      END IF
      J=3
   10 WRITE (6,20) J
   20 FORMAT (I2)
      END
