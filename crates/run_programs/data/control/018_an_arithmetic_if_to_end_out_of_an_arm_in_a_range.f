      DO 10 I=1,3
      IF (I.GT.1) THEN
      IF (I-2) 10,30,10
      END IF
   10 WRITE (6,20) I
   20 FORMAT (I2)
   30 END
