      INTEGER DO10I
      D O 10 I = 1                                                      ABC
      WRITE (6,20) DO10I
   20 FORMAT (I2)
      END
