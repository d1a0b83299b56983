      WRITE (6,10) ((J,J=1,0),I=1,3),I,J
   10 FORMAT (2I2)
      END
