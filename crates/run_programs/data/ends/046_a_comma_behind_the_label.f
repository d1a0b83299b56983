      DO 10,I=1,3
      DO 20,J=1,2
      K=K+J
   20 END DO
   10 END DO
      WRITE (6,30) I,J,K
   30 FORMAT (3I4)
      END
