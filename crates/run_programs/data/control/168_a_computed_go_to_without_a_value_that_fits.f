      GO TO (10,20),I
   10 I=1
   20 I=2
      WRITE (6,30) I
   30 FORMAT (I2)
      END
