      DO 40 I=-2,2,2
      IF (I) 10,20,30
   10 WRITE (6,50) 1
      GO TO 40
   20 WRITE (6,50) 2
      GO TO 40
   30 WRITE (6,50) 3
   40 CONTINUE
   50 FORMAT (I2)
      END
