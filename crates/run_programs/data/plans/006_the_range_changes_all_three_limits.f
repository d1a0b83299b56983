      M=1
      N=9
      L=2
      DO 10 I=M,N,L
      M=5
      N=N+I
   10 L=L+1
      WRITE (6,20) I,M,N,L
   20 FORMAT (4I3)
      END
