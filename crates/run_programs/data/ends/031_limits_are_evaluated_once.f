      M=1
      N=9
      L=2
      DO I=M,N,L
      M=5
      N=N+I
      L=L+1
      END DO
      WRITE (6,10) I,M,N,L
   10 FORMAT (4I3)
      END
