      DO I=1,2
      DO 20 J=1,3
      DO 10 K=1,2
      N=N+1
   10 CONTINUE
      M=M+N
   20 END DO
      WRITE (6,30) I,N,M
      END DO
   30 FORMAT (3I5)
      END
