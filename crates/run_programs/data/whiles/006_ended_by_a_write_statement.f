      I=27
      DO 10 WHILE (I.NE.0)
      I=I/2
   10 WRITE (6,20) I
   20 FORMAT (I4)
      END
