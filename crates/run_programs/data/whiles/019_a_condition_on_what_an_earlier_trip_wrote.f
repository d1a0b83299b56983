      DO I=1,25
      DO WHILE (M.LT.I*I)
      M=M+7
      END DO
      K=K+M
      END DO
      WRITE (6,10) M,K
   10 FORMAT (2I6)
      END
