      DO 10 I=1,9
      WRITE (6,20) I
   10 IF (I.EQ.3) STOP 3
   20 FORMAT (I2)
      END
