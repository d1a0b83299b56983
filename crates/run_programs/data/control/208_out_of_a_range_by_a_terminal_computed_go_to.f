      DO 10 I=1,5
   10 GO TO (20,20),I-3
      I=9
   20 WRITE (6,30) I
   30 FORMAT (I2)
      END
