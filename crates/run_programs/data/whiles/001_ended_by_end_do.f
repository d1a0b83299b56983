      DO WHILE (I.LT.5)
      I=I+1
      J=J+I*I
      END DO
      WRITE (6,10) I,J
   10 FORMAT (2I4)
      END
