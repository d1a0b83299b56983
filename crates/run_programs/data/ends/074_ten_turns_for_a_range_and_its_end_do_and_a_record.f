C TURNS 10
C     DO 1; FOUR TRIPS OF 2; WRITE 1.
      DO I=1,4
      K=K+I
      END DO
      WRITE (6,10) K
   10 FORMAT (I3)
      END
