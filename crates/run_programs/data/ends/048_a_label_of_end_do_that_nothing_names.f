      DO I=1,3
      DO 10 J=1,2
      K=K+1
   10 END DO
   20 END DO
      DO 40 I=1,2
      DO J=1,3
      K=K+10
   30 END DO
   40 K=K+100
      WRITE (6,50) I,J,K
   50 FORMAT (3I5)
      END
