      N=2
      DO 20 I=1,9
      DO 10 J=1,N
   10 K=K+1
   20 N=3-N
      WRITE (6,30) I,J,K,N
   30 FORMAT (4I3)
      END
