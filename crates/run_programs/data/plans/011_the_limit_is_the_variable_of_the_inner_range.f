      N=4
      DO 20 I=1,N
      DO 10 N=1,I
   10 K=K+1
   20 CONTINUE
      WRITE (6,30) I,K,N
   30 FORMAT (3I3)
      END
