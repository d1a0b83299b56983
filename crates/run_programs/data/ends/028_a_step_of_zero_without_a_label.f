      K=5
      WRITE (6,10) K
      DO I=1,3,K-5
      K=6
      END DO
   10 FORMAT (I3)
      END
