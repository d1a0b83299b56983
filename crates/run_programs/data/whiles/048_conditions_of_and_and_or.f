      DO WHILE (I.LT.9.AND.J.LT.20)
      I=I+1
      J=J+I
      END DO
      WRITE (6,10) I,J
      DO WHILE (I.GT.0.OR.J.GT.15)
      I=I-1
      J=J-1
      END DO
      WRITE (6,10) I,J
   10 FORMAT (2I4)
      END
