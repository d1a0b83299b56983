      IMPLICIT INTEGER (A-Z)
      D O 10 I = 1                                                      ABC
      WRITE (6,20) DO10I
   20 FORMAT (I2)
      END
