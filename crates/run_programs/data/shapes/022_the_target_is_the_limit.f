      N=5
      DO 10 I=1,N
   10 N=2
      WRITE (6,9) I,N
      N=4
      DO 20 I=1,N,2
   20 N=N-1
      WRITE (6,9) I,N
    9 FORMAT (2I3)
      END
