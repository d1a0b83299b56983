      WRITE (6,10) 1
      DO WHILE (1/I.EQ.0)
      I=I+1
      END DO
      WRITE (6,10) I
   10 FORMAT (I4)
      END
