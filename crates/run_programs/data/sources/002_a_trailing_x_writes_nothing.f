      WRITE (*,7) 1,22,333
    7 FORMAT (I2,3X)
      END
