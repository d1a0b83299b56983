      DO 30 I=1,2
      J=I
      IF (J.EQ.1) THEN
      IF (I.EQ.1) GO TO 20
      J=9
      ELSE
      J=5
   20 END IF
   30 WRITE (6,40) J
   40 FORMAT (I2)
      END
