      WRITE (6,10) .TRUE.
   10 FORMAT (L3,2X,'A'/I2.2,:,'END')
      END
