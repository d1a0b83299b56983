      N=3
      DO 10 I=1,N
   10 N=N+1
      WRITE (6,20) I,N
   20 FORMAT (2I3)
      END
