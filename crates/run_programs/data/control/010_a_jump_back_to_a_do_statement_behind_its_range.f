      N=3
   10 DO 20 I=N,1,-1
   20 K=K+I
      N=N-1
      IF (N.GE.0) GO TO 10
      WRITE (6,30) N,I,K
   30 FORMAT (3I4)
      END
