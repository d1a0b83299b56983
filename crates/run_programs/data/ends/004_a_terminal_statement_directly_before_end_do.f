      DO I=1,4
      DO 10 J=1,I
   10 K=K+J
      END DO
      DO 30 I=1,3
      DO 20 J=1,2
   20 K=K+1
   30 END DO
      WRITE (6,40) I,J,K
   40 FORMAT (3I5)
      END
