      DO 10 J=1,2
   10 WRITE (6,20) ((I,I=1,J),(I,I=J,1,-1),K=1,2)
   20 FORMAT (8I2)
      END
