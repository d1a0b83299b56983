      DO WHILE ((I.LT.3))
      I=I+1
      END DO
      DO WHILE ((I.LT.5).OR.((I.LT.9).AND.(J.LT.1)))
      I=I+1
      END DO
      WRITE (6,10) I
   10 FORMAT (I4)
      END
