      I=1
      GO TO (10),I
      IF (I.EQ.1) THEN
      I=2
   10 END IF
      WRITE (6,20) I
   20 FORMAT (I2)
      END
