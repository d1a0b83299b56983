      DO I10=1,3
      K=K+I10
      END DO
      DO10I10=5,6
      K=K+10*I10
   10 END DO
      WRITE (6,20) I10,K
   20 FORMAT (2I4)
      END
