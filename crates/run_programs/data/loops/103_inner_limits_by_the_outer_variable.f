      DO 20 I=1,2
      DO 10 J=I,2
      WRITE (6,30) I,J
   10 CONTINUE
   20 CONTINUE
   30 FORMAT (2I2)
      END
