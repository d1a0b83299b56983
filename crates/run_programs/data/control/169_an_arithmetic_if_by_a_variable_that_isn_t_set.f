      IF (I) 10,10,20
   10 I=1
      GO TO 30
   20 I=2
   30 WRITE (6,40) I
   40 FORMAT (I2)
      END
