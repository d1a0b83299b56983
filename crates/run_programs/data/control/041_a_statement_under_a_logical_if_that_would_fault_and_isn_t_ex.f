      IF (I.EQ.1) K=I/J
      IF (I.EQ.1) WRITE (6,10) .TRUE.
      WRITE (6,10) K
   10 FORMAT (I2)
      END
