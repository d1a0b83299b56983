      DO I=1,6
      DO WHILE (K.LT.I*I)
      K=K+I
      END DO
      END DO
      WRITE (6,10) I,K
   10 FORMAT (2I4)
      END
