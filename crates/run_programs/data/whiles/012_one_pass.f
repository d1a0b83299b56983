      DO WHILE (I.EQ.0)
      I=I+1
      WRITE (6,10) I
      END DO
      WRITE (6,10) I+10
   10 FORMAT (I4)
      END
