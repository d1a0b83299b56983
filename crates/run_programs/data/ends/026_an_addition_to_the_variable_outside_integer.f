      WRITE (6,10) K
      DO I=2147483645,2147483647
      K=K+1
      END DO
      WRITE (6,10) K
   10 FORMAT (I3)
      END
