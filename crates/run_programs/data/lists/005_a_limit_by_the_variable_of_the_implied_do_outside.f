      WRITE (6,10) ((I,J,J=I,1,-1),I=1,3)
   10 FORMAT (6(I3,I2))
      END
