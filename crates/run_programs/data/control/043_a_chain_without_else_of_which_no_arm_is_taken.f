      I=7
      IF (I.EQ.1) THEN
      K=1
      ELSE IF (I.EQ.2) THEN
      K=2
      ELSE IF (I.EQ.3) THEN
      K=3
      END IF
      WRITE (6,10) I,K
   10 FORMAT (2I2)
      END
