      I=9
      WRITE (6,10) I,(I,I=1,3),I,(I,I=7,6),I
      WRITE (6,10) I
   10 FORMAT (9I2)
      END
