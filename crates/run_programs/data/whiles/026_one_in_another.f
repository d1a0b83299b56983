      DO WHILE (I.LT.4)
      I=I+1
      J=0
      DO WHILE (J.LT.I)
      J=J+1
      K=K+I*J
      END DO
      END DO
      WRITE (6,10) I,J,K
   10 FORMAT (3I4)
      END
