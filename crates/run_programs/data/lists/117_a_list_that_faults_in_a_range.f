      DO 10 I=1,3
      WRITE (6,20) (4/(3-J),J=1,I)
   10 CONTINUE
   20 FORMAT (3I2)
      END
