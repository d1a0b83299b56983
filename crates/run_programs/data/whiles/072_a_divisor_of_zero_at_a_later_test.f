      I=3
      DO WHILE (12/I.LT.99)
      WRITE (6,10) I
      I=I-1
      END DO
   10 FORMAT (I4)
      END
