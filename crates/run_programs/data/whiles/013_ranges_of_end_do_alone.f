      I=1
      DO WHILE (I.LT.1)
      END DO
      DO 10 WHILE (I.LT.0)
   10 END DO
      WRITE (6,20) I
   20 FORMAT (I4)
      END
