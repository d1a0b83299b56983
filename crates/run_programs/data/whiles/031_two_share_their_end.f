      DO 10 WHILE (I.LT.3)
      I=I+1
      DO 10 WHILE (J.LT.5*I)
      J=J+2
   10 K=K+J
      WRITE (6,20) I,J,K
   20 FORMAT (3I4)
      END
