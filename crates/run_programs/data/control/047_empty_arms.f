      DO 10 I=1,3
      IF (I.EQ.1) THEN
      ELSE IF (I.EQ.2) THEN
      ELSE
      END IF
      IF (I.EQ.9) THEN
      END IF
   10 K=K+I
      WRITE (6,20) K
   20 FORMAT (I2)
      END
