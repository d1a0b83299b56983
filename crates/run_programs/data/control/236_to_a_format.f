      GO TO 10
   10 FORMAT (I2)
      END
