      I=2
      DO WHILE (I**I.GT.0)
      I=I-1
      WRITE (6,10) I
      END DO
   10 FORMAT (I4)
      END
