      DO 10 I=1,2
      IF (I.EQ.1) WRITE (6,20) (J,(I,I=1,2),J=1,2)
   10 CONTINUE
   20 FORMAT (I2)
      END
