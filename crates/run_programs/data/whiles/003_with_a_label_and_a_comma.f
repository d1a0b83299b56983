      DO 10, WHILE (I.LT.5)
      I=I+2
   10 END DO
      DO 20, WHILE (I.LT.12)
      I=I+3
   20 CONTINUE
      WRITE (6,30) I
   30 FORMAT (I4)
      END
