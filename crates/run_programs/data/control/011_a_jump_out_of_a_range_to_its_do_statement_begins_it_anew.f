      N=0
   10 DO 20 I=1,3
      N=N+1
      IF (N.EQ.2) GO TO 10
   20 WRITE (6,30) I,N
   30 FORMAT (2I4)
      END
