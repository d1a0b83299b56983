      I=1
      IF (I.EQ.0) THEN
      K=1
      ELSE IF (I.EQ.1) THEN
      K=2
      ELSE IF (I/J.EQ.1) THEN
      K=3
      ELSE IF (I.EQ.1) THEN
      K=4
      END IF
      WRITE (6,10) K
   10 FORMAT (I2)
      END
