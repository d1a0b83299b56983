      DO 10 WHILE (I*I.LT.50)
   10 I=I+1
      WRITE (6,20) I
   20 FORMAT (I4)
      END
