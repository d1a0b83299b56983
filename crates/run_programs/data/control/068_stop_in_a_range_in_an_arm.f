      DO 20 I=1,9
      IF (I.GE.4) THEN
      DO 10 J=1,9
      IF (J.EQ.2) THEN
      STOP 4
      END IF
   10 WRITE (6,30) I,J
      END IF
   20 WRITE (6,30) I
   30 FORMAT (2I2)
      END
