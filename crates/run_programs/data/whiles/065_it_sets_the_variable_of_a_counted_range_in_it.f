      DO WHILE (I.LT.30)
      J=0
      DO I=I,I+5
      J=J+I
      END DO
      I=I+2
      END DO
      WRITE (6,10) I,J
   10 FORMAT (2I4)
      END
