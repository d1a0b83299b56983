      WRITE (6,10) ((J,J=1,0),I=1,65535)
      WRITE (6,20) I,J
   10 FORMAT ('NO VALUES')
   20 FORMAT (I6,I2)
      END
