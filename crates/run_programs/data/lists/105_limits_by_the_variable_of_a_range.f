      DO 10 I=1,3
   10 WRITE (6,20) (J,J=1,I),I
   20 FORMAT (4I2)
      END
