      K=2
      DO WHILE (.TRUE.)
      WRITE (6,10) K
      DO I=1,5,K
      J=J+I
      END DO
      K=K-1
      END DO
   10 FORMAT (I4)
      END
