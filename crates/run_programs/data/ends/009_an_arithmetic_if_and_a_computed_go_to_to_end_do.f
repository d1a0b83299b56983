      DO I=1,6
      IF (I-3) 30,10,10
   10 K=K+I
      GO TO (20,30),I-3
      K=K+100
   20 K=K+1000
   30 END DO
      WRITE (6,40) I,K
   40 FORMAT (2I6)
      END
