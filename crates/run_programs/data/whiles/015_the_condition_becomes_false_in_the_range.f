      DO WHILE (I.EQ.0)
      I=1
      J=J+1
      I=I-1
      IF (J.EQ.4) I=5
      K=K+I
      END DO
      WRITE (6,10) I,J,K
   10 FORMAT (3I4)
      END
