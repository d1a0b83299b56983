      I=7
      DO WHILE (I.LT.5)
      J=1
      WRITE (6,10) J
      END DO
      WRITE (6,10) I,J
   10 FORMAT (2I4)
      END
