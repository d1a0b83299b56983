      IF (I.EQ.0) THEN
      DO 10 J=1,2
      WRITE (6,20) J
   10 CONTINUE
      WRITE (6,20) J
      ELSE
      WRITE (6,20) 9
      END IF
   20 FORMAT (I2)
      END
